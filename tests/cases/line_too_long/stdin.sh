printf "rule show%1016s\nrule show\n" ""
