# A stream that fails is named on standard error with the reason, also where that is no terminal.
tell() {
  echo "status $1"
  cat errors
}
echo 'route show' | "$1" batch 2>errors >/dev/full
tell $?
echo 'route show' | "$1" batch 2>errors >&-
tell $?
"$1" batch . 2>errors
tell $?
"$1" check . 2>errors
tell $?
"$1" replay . 2>errors
tell $?
"$1" batch 2>errors <.
tell $?
echo call | "$1" replay 2>errors >/dev/full
tell $?
echo 'link show' | "$1" check 2>errors >/dev/full
tell $?
"$1" batch --db routes.db 2>errors <.
tell $?
