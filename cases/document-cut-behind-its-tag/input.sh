# 30
printf '\060'
