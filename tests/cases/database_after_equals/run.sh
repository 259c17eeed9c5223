# `--db=PATH` names the database as `--db PATH` does, also after FILE.
echo 'route add 10/8 dev eth0' | "$1" batch - --db=routes.db
ls routes.db
echo 'route show' | "$1" batch --db routes.db
mkdir folder
echo 'rule flush' | "$1" batch - --db=folder 2>&1
echo "status $?"
