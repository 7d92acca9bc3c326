# the path has all of them
printf '%s' 'refused: instance Truncated at 500075 in /Document[1]/Note[1]/Nd[1]'
yes '/Sub[1]' | head -n 100000 | tr -d '\n'
echo
