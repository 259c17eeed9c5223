# The package is made and unpacked, and its program runs the first script: as whoever runs this, and as a new user in a root
# of its own, which has the package and the libraries that the program is linked with, and nothing else.
top=$(dirname "$0")/../../..
package=$("$top/package" --program "$1" .) || exit
version=$("$1" --version | awk 'NR == 1 { print $2 }')
echo "${package//"$version"/VERSION}"
dpkg-deb --field "$package" Package Architecture
dpkg-deb --extract "$package" root
(cd root && find . -type f | sort)

# What is run when it comes and goes, where systemd is at work: its words to that are shown.
dpkg-deb --control "$package" control
ls control
mkdir systemd bin none
for tool in systemctl systemd-sysusers; do
  printf '#!/bin/sh\necho "  %s $*"\n' $tool >bin/$tool
done
# Where there is no systemd the group is made by other programs.
touch none/getent
printf '#!/bin/sh\necho "  groupadd $*"\n' >none/groupadd
chmod 755 bin/* none/*
sed "s|/run/systemd/system|$PWD/no-systemd|" control/postinst >step
for status in 2 0; do
  printf '#!/bin/sh\nexit %s\n' $status >none/getent
  echo "getent $status:"
  PATH=$PWD/none /bin/sh step configure
done
for step in 'postinst configure' 'postinst configure 0.0.1' 'prerm upgrade 0.0.2' 'prerm remove' 'postrm remove'; do
  read -ra words <<<"$step"
  sed "s|/run/systemd/system|$PWD/systemd|" "control/${words[0]}" >step
  echo "$step:"
  PATH=$PWD/bin:$PATH sh step "${words[@]:1}" || echo "  status $?"
done

# The links of the installed documents lead to what is installed.
grep -rnoE '\]\([^)#]+[^)]*\)' --include='*.md' root/usr/share/doc | grep -v http | while IFS=: read -r document _ link; do
  link=${link:2:-1}
  [ -e "$(dirname "$document")/${link%%#*}" ] || echo "$document: a dead link: $link"
done

root/usr/bin/prt batch root/usr/share/doc/prt/examples/first-run.batch

for library in $(ldd root/usr/bin/prt | grep -o '/[^ ]*'); do
  install -D "$library" "root$library"
done
install -d -m 777 root/home
in_root() {
  if [ "$(id -u)" -eq 0 ]; then
    chroot --userspec=12345:12345 --groups='' root "$@"
  else
    unshare --map-root-user chroot root "$@"
  fi
}
chmod 755 root
in_root /usr/bin/prt batch --db /home/first.db /usr/share/doc/prt/examples/first-run.batch
echo 'route get 198.51.100.7' | in_root /usr/bin/prt batch --db /home/first.db
[ "$(id -u)" -ne 0 ] || [ "$(stat -c %u root/home/first.db)" = 12345 ] || echo 'another user'

# The service is run as its unit says, with its umask, and its folders as systemd makes them. It is up once the second command
# ends. Then a change goes through its socket.
unit=root/usr/lib/systemd/system/prt.service
of_unit() { sed -n "s/^$1=//p" $unit; }
for folder in "var/lib/prt $(of_unit StateDirectoryMode)" "run/prt $(of_unit RuntimeDirectoryMode)"; do
  install -d -m "${folder#* }" "root/${folder% *}"
  [ "$(id -u)" -ne 0 ] || chown 12345:12345 "root/${folder% *}"
done
read -ra start <<<"$(of_unit ExecStart)"
read -ra post <<<"$(of_unit ExecStartPost)"
(umask "$(of_unit UMask)" && in_root "${start[@]}") &
in_root "${post[@]}" || echo "ExecStartPost: $?"
echo 'route add 10/8 dev eth0' >root/home/change.batch
in_root /usr/bin/prt apply --server /run/prt /home/change.batch
in_root /usr/bin/prt status --server /run/prt | grep -E '^(number|state)'
stat -c '%a %n' root/run/prt root/run/prt/* root/var/lib/prt
pkill -f "${start[*]}"
wait

# What the completion offers after these words.
# shellcheck disable=SC1091
source root/usr/share/bash-completion/completions/prt
offered() {
  COMP_WORDS=(prt "$@")
  COMP_CWORD=$#
  _prt 2>/dev/null
  echo "${COMPREPLY[*]}"
}
offered b
offered batch --
offered serve ''
offered replay root/usr/share/doc/prt/examples/g
offered follow --server x:1 --
offered wait ''
offered get --server ''
offered serve --sockets root/usr/sh
offered apply --atomic ''
offered batch --atomic root/usr/share/doc/prt/examples/g
offered apply --
offered status --
offered serve --listen ''
offered dump --r
offered diff root/usr/share/doc/prt/examples/g
offered explain root/usr/share/doc/prt/examples/g
offered get --db routes.db 10.0.0.1 f
offered show --db routes.db type b
offered get 10.0.0.1 iif l | grep -ow lo
offered impact --
offered assert root/usr/share/doc/prt/examples/g

# Each completion knows the subcommands of the help, and the options of each.
share=root/usr/share
root/usr/bin/prt help | sed -nE 's/^  ([a-z]+) .*/\1/p' | grep -vx help | while read -r command; do
  root/usr/bin/prt "$command" --help | sed -nE 's/^ +(-., )?(--[a-z-]+).*/\2/p' | sort >options
  offered "$command" -- | tr ' ' '\n' | sort | diff options - || echo "bash: the options of $command"
  grep -q "^    '$command:" $share/zsh/vendor-completions/_prt || echo "zsh: $command"
  grep -q -- "-a $command " $share/fish/vendor_completions.d/prt.fish || echo "fish: $command"
  while read -r option; do
    grep -qF -- "${option}[" $share/zsh/vendor-completions/_prt || echo "zsh: $option"
    grep -qE -- "^complete -c prt (-n '__prt_runs .*\b$command\b.*' )?-l ${option#--} " $share/fish/vendor_completions.d/prt.fish ||
      echo "fish: $option of $command"
  done <options
done

# What systemd finds wrong with the units, where the program stands here.
if command -v systemd-analyze >/dev/null; then
  mkdir units
  for unit in root/usr/lib/systemd/system/*; do
    sed "s|=/usr/|=$PWD/root/usr/|" "$unit" >"units/$(basename "$unit")"
  done
  systemd-analyze verify --man=no units/* 2>&1
  # How exposed each service is by its sandbox: 2.5 of 10 at most.
  for unit in units/*.service; do
    systemd-analyze security --offline=true --no-pager --threshold=25 "$unit" >report 2>&1 || tail -n 1 report
  done
fi
