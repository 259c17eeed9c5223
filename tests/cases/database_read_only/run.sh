# A database that may not be written is refused and is as it was; nor is one made in a folder that may not be written.
# The superuser may write everything, so the runs are another user's there.
as_other() {
  if [ "$(id -u)" -eq 0 ]; then setpriv --reuid=65534 --regid=65534 --clear-groups "$@"; else "$@"; fi
}
# Who opens a database has to be able to go through all folders above it.
work=$(mktemp -d)
trap 'rm -rf "$work"' EXIT
chmod 755 "$work"
cd "$work" || exit
cp "$1" prt
mkdir folder open
chmod 777 open
echo 'route add 10/8 dev eth0' | as_other ./prt batch --db open/routes.db
echo 'route add 10/8 dev eth0' | ./prt batch --db folder/routes.db
cp folder/routes.db before.db
chmod 444 folder/*
chmod 555 folder
for path in folder/routes.db folder/new.db; do
  echo 'route add 11/8 dev eth0' | as_other ./prt batch --db $path 2>&1
  echo "status $?"
done
chmod 755 folder
cmp folder/routes.db before.db && [ ! -e folder/new.db ] && echo unchanged
