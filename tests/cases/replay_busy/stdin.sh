# A looker stays at version 0 while 64 versions are retired; it goes offline, and a reclaim makes room.
round() { printf 'submit rule flush\ncall\ncall\ncall\ncall\npublish\nnote\nack\n'; }

echo 'online 7'
for _ in $(seq 64); do round; done
echo 'submit rule flush'
echo 'reclaim'
echo 'submit rule flush'
echo 'offline 7'
echo 'reclaim'
echo 'submit rule flush'
