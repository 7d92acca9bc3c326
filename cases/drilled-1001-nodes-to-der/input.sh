python3 shared/drilled.py xml 7 1000
