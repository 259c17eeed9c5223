# Names of protocols are those of the host's files, as FRR installs them: also one that has another number there.
prt=$1
[ -d /etc/iproute2 ] || { echo "left out: there is no /etc/iproute2 here" >&2; exit 77; }
space=(unshare --mount)
[ "$(id -u)" -eq 0 ] || space+=(--map-root-user)
# The files are there for what runs in this namespace alone.
"${space[@]}" bash -c '
  mount -t tmpfs none /etc/iproute2 && mkdir /etc/iproute2/rt_protos.d && printf "186\tbgp\n191\tnhrp\n195\tpbr\n196\tstatic\n" >/etc/iproute2/rt_protos.d/frr.conf || exit 77
  "$@"
' bash "$prt" import <<'LISTING' 2>&1
10.1.0.0/16 dev eth0 proto pbr scope link 
10.2.0.0/16 dev eth0 proto static scope link 
10.3.0.0/16 dev eth0 proto nhrp scope link 
10.4.0.0/16 dev eth0 proto zebra scope link 
10.5.0.0/16 dev eth0 proto 201 scope link 
10.6.0.0/16 dev eth0 proto nowhere scope link 
LISTING
status=$?
[ "$status" -ne 77 ] || { echo "left out: no mount namespace can be made here" >&2; exit 77; }
echo "status $status"
