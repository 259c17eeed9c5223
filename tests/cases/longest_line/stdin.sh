printf "rule show%1015s\nrule show%1015s" "" ""
