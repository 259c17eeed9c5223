# As many events and lines as a file may have.
{
  yes reopen | head -n 100000
  yes '# no event' | head -n 900000
} | "$1" replay | uniq -c | sed 's/^ *//'
