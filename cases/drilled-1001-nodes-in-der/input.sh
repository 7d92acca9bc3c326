python3 shared/drilled.py der 7 1000
