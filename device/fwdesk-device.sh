#!/bin/sh
# Keeps this device's firmware as its fleet's server has it: polls, downloads, checks, installs, reports. For devices
# without Python: it needs a POSIX shell, curl, jq, sha256sum and flock, busybox's too.
#
#     fwdesk-device.sh [--once] [--state FOLDER]
#
# The environment, the folder of its state and the status are those of fwdesk-device (man fwdesk-device), so one goes on
# where the other was killed. Each step is written down before or after it is made, durably.
# shellcheck disable=SC2016 # what stands in single quotes is jq's
set -u
export LC_ALL=C

interval=300 # seconds between two polls where the server names none
patience=60  # seconds without a byte until a reply is given up
first_wait=5 # seconds before the first try after a failure
downloads=3  # how often a file that comes with another SHA-256 is fetched
after_boot=10
boot_file=/proc/sys/kernel/random/boot_id
once=
folder=${STATE_DIRECTORY:-/var/lib/fwdesk-device}

say() {
  echo "fwdesk-device: $*" >&2
}

while [ $# != 0 ]; do
  case $1 in
    --once) once=1 ;;
    --state) folder=$2 && shift ;;
    *) sed -n '2,8s/^# \{0,1\}//p' "$0" && exit 2 ;;
  esac
  shift
done
for it in FWDESK_URL FWDESK_ID FWDESK_TOKEN FWDESK_INSTALL; do
  if eval "[ -z \"\${$it:-}\" ]"; then say "the environment lacks $it" && exit 2; fi
done
for it in curl jq sha256sum flock; do
  command -v "$it" > /dev/null || { say "$it isn't there" && exit 2; }
done
mkdir -p "$folder" && chmod 700 "$folder" || exit 2
state=$folder/state.json
work=$folder/work
base=/DEFAULT/controller/v1/$FWDESK_ID
# the token isn't on the command line of curl, where every process sees it
token=$FWDESK_TOKEN
unset FWDESK_TOKEN

# --- what is kept

# get NAME: a value of the state, or nothing
get() {
  jq -r --arg name "$1" '.[$name] // empty' "$state"
}

# put: what $state.new has becomes the state, whole or not at all
put() {
  sync "$state.new" && mv "$state.new" "$state" && sync "$folder"
}

# keep FILTER [ARGUMENTS OF JQ]: changes the state
keep() {
  filter=$1
  shift
  jq -cS "$@" "$filter" "$state" > "$state.new" && put
}

# begin ACTION: begins an action anew, without anything of the one before
begin() {
  rm -rf "$work"
  keep '{action: $action, number: 0, file: 0}' --arg action "$1"
}

# --- calls: they leave the reply in $folder/reply, and give 0; 1 where it may go well later; 2 where it is refused for good

# call PATH [OPTIONS OF CURL]
call() {
  path=$1
  shift
  rm -f "$folder/reply"
  code=$(printf 'header = "Authorization: TargetToken %s"\n' "$token" |
    curl -sS -K - ${FWDESK_CA:+--cacert "$FWDESK_CA"} --connect-timeout "$patience" --speed-limit 1 --speed-time "$patience" \
      --proto '=http,https' -D "$folder/head" -o "$folder/reply" -w '%{http_code}' "$@" "$FWDESK_URL$path") || code=000
  case $code in
    2??) return 0 ;;
    400 | 403 | 404 | 409 | 410 | 413 | 416)
      say "$path: $code $(head -c 200 "$folder/reply" 2> /dev/null)"
      return 2
      ;;
    *)
      say "$path: $code $(head -c 200 "$folder/reply" 2> /dev/null)"
      after=$(sed -n 's/^[Rr]etry-[Aa]fter: *\([0-9][0-9]*\).*/\1/p' "$folder/head" 2> /dev/null)
      return 1
      ;;
  esac
}

# poll: what there is to do, in $kind and $action, and when one asks again, in $sleep
poll() {
  kind='' action='' sleep=$interval
  call "$base" || return 1
  told=$(jq -r '(._links // {}) as $l
    | ($l.cancelAction // $l.deploymentBase // {} | .href // "" | sub("[?].*"; "") | sub(".*/"; "")) as $action
    | ((.config.polling.sleep // "") | if test("^[0-9]+:[0-9][0-9]:[0-9][0-9]$")
        then split(":") | map(tonumber) | .[0] * 3600 + .[1] * 60 + .[2] else 300 end) as $sleep
    | "\($action | if . == "" then "?" else . end)" as $action
    | "\(if $l.cancelAction then "cancelAction" elif $l.deploymentBase then "deploymentBase" else "-" end) \($action) \($sleep)"' \
    "$folder/reply") || return 1
  # shellcheck disable=SC2086 # three words
  set -- $told
  sleep=$3
  if [ "$1" = - ]; then return 0; fi
  case $2 in *[!0-9]*) say "no number of an action" && return 1 ;; esac
  kind=$1 action=$2
}

# --- reports

# owe KIND EXECUTION FINISHED [WORDS]: writes a report down that is owed from now on; WORDS has up to eight lines
owe() {
  keep '(.number // 0) as $last | ($words | split("\n")
      | map(gsub("[^ -~]"; " ") | .[:256] | select(test("[^ ]"))) | .[:8]) as $details
    | .number = $last + 1
    | .owed = {kind: $kind, body: {number: ($last + 1),
        status: {execution: $execution, result: {finished: $finished}, details: $details}}}
    | if $finished == "none" then . else .closed = true end
    | if $kind == "cancelAction" then .canceled = true else . end' \
    --arg kind "$1" --arg execution "$2" --arg finished "$3" --arg words "${4:-}"
}

# pay: sends the report that is owed, until the server has it. The same number again changes nothing there
pay() {
  while [ -n "$(get owed)" ]; do
    jq -c .owed.body "$state" > "$folder/body"
    call "$base/$(jq -r .owed.kind "$state")/$(get action)/feedback" -H 'Content-Type: application/json' \
      --data-binary "@$folder/body"
    case $? in
      0) ;;
      1) return 1 ;;
      # where this device's state was lost its numbers begin anew, and some of them are used
      *) if [ "$(get number)" -lt 1000 ] && grep -q '"number":22}' "$folder/reply" 2> /dev/null; then
        keep '.number += 1 | .owed.body.number = .number'
        continue
      fi ;;
    esac
    keep 'del(.owed)'
  done
  if [ "$(get closed)" = true ]; then rm -rf "$work"; fi
}

# --- a deployment

# fail WORDS: the deployment can't be carried out
fail() {
  owe deploymentBase closed failure "$1"
}

# file_value INDEX NAME: of a file of the deployment, in the order in which they are installed
file_value() {
  jq -r --argjson index "$1" --arg name "$2" '[.deployment.chunks[] as $c | $c.artifacts[] | {part: $c.part, name: $c.name,
    version: $c.version, filename, path: ._links."download-http".href, sha256: .hashes.sha256, size}][$index][$name]' \
    "$work/deployment"
}

# fetch INDEX: downloads a file, from where it was left, to file-INDEX; 1 later, 2 never
fetch() {
  if [ -e "$work/file-$1" ]; then return 0; fi
  part=$work/part-$1
  size=$(file_value "$1" size) wanted=$(file_value "$1" sha256) path=$(file_value "$1" path)
  case $path in /*) ;; *) say "$path is no path of the server" && return 1 ;; esac
  tried=0
  while [ "$tried" -lt "$downloads" ]; do
    start=$(wc -c < "$part" 2> /dev/null || echo 0)
    if [ "$start" -lt "$size" ]; then
      more "$path" "$part" "$start" "$size" || return $?
    fi
    if [ "$(wc -c < "$part")" -lt "$size" ]; then say "$path: bytes are missing" && return 1; fi
    found=$(sha256sum < "$part") found=${found%% *}
    if [ "$found" = "$wanted" ]; then
      sync "$part" && mv "$part" "$work/file-$1" && sync "$work"
      return 0
    fi
    rm -f "$part"
    tried=$((tried + 1))
  done
  why="$(file_value "$1" filename): its SHA-256 is $found, and not $wanted"
  return 2
}

# more PATH PART START SIZE: fetches what a part lacks, into a piece beside it: a server that sends no ranges begins anew.
# What came of a reply that broke off is kept too
more() {
  rest=$2.rest
  rm -f "$rest"
  code=$(printf 'header = "Authorization: TargetToken %s"\n' "$token" |
    curl -sS -K - ${FWDESK_CA:+--cacert "$FWDESK_CA"} --connect-timeout "$patience" --speed-limit 1 --speed-time "$patience" \
      --proto '=http,https' --max-filesize "$4" -D "$folder/head" -o "$rest" -w '%{http_code}' -r "$3-" "$FWDESK_URL$1")
  case $code in
    206) cat "$rest" >> "$2" && sync "$2" ;;
    200) if [ "$(wc -c < "$rest")" -ge "$3" ]; then mv "$rest" "$2"; fi ;;
    403 | 404 | 410) why="$1: $code" && return 2 ;;
    416) rm -f "$2" && return 1 ;;
    *) say "$1: $code" && return 1 ;;
  esac
}

# command RUN COMMAND ARGUMENTS..: runs a command, whose outcome is kept in a folder whatever becomes of this process.
# It holds the lock meanwhile, and leaves it to nothing that the command starts
command_in() {
  # shellcheck disable=SC2016 # it is for the other shell
  FWDESK_PART=$(get_begun part) FWDESK_NAME=$(get_begun name) FWDESK_VERSION=$(get_begun version) \
    sh -c 'cd "$1" && : > begun && sync begun . && shift || exit
    "$@" < /dev/null > output 2>&1 9>&-; status=$?
    echo "$status" > status.new && sync status.new && mv status.new status && sync .' fwdesk-device "$@"
}

# get_begun NAME: of the file whose installation was begun
get_begun() {
  jq -r --arg name "$1" '.begun | {filename: .arguments[1], boot, part: .module.FWDESK_PART, name: .module.FWDESK_NAME,
    version: .module.FWDESK_VERSION} | .[$name]' "$state"
}

# install INDEX: has the command install a file. From `begun` on it isn't begun again, whatever happens
install_file() {
  run=$work/run-$1
  rm -rf "$run" && mkdir "$run" || return 1
  keep '.file = $file | .begun = {arguments: [$place, $filename], boot: $boot,
      module: {FWDESK_PART: $part, FWDESK_NAME: $name, FWDESK_VERSION: $version}}' \
    --argjson file "$1" --arg place "$work/file-$1" --arg filename "$(file_value "$1" filename)" --arg boot "$(cat "$boot_file")" \
    --arg part "$(file_value "$1" part)" --arg name "$(file_value "$1" name)" --arg version "$(file_value "$1" version)" || return 1
  command_in "$run" "$FWDESK_INSTALL" "$work/file-$1" "$(file_value "$1" filename)"
  return 0
}

# confirm INDEX: whether an installation whose end nobody saw has succeeded, in $status and $words
confirm() {
  if [ -z "${FWDESK_CONFIRM:-}" ]; then
    status=unknown words="nobody saw its end, and nothing says whether it is installed"
    return
  fi
  run=$work/confirm
  rm -rf "$run" && mkdir "$run"
  command_in "$run" "$FWDESK_CONFIRM" "$work/file-$1" "$(get_begun filename)"
  status=$(cat "$run/status" 2> /dev/null || echo unknown)
  words="nobody saw its end, and it isn't confirmed
$(tail -n 5 "$run/output" 2> /dev/null)"
}

# settle: finds out what became of the installation that was begun, and goes on to the next file or closes the action
settle() {
  index=$(get file) index=${index:-0}
  run=$work/run-$index
  if [ -e "$run/status" ]; then
    status=$(cat "$run/status") words=$(tail -n 6 "$run/output" 2> /dev/null)
    if [ "$status" = "$after_boot" ]; then
      if [ "$(get_begun boot)" = "$(cat "$boot_file")" ]; then
        say "$(get_begun filename) waits for the next boot"
        after=$interval
        return 1
      fi
      confirm "$index"
    fi
  elif [ ! -e "$run/begun" ]; then
    # the command never ran: `deploy` begins with it
    keep 'del(.begun)'
    return
  else
    confirm "$index"
  fi
  if [ "$status" = 0 ]; then
    keep '.file += 1 | del(.begun)'
  else
    fail "$(get_begun filename): status $status
$words"
  fi
}

# cancel ACTION: gives an action up: none is in the middle of an installation here
cancel() {
  if [ "$(get action)" != "$1" ]; then begin "$1"; fi
  if [ "$(get canceled)" = true ]; then say "action $1 is to be canceled again, though it is" && return 1; fi
  owe cancelAction canceled success && pay
}

# deploy ACTION: carries out what is offered, from where it was left; 1 where it goes on later
deploy() {
  offered=$1
  if [ "$(get action)" = "$offered" ] && [ "$(get closed)" = true ]; then
    say "action $offered is offered again, though it is closed" && return 1
  fi
  if [ "$(get action)" != "$offered" ]; then begin "$offered"; fi
  call "$base/deploymentBase/$offered"
  case $? in 0) ;; 1) return 1 ;; *) fail "the deployment is refused: $code" && pay && return ;; esac
  mkdir -p "$work" && mv "$folder/reply" "$work/deployment" || return 1
  if [ "$(get number)" = 0 ]; then
    owe deploymentBase proceeding none downloading && pay || return 1
  fi
  count=$(jq '[.deployment.chunks[].artifacts[]] | length' "$work/deployment") || return 1
  index=0
  while [ "$index" -lt "$count" ]; do
    fetch "$index"
    case $? in 0) ;; 1) return 1 ;; *) fail "$why" && pay && return ;; esac
    index=$((index + 1))
  done
  # it may have been canceled or held meanwhile
  poll || return 1
  if [ "$kind $action" != "deploymentBase $offered" ]; then return 0; fi
  while [ "$(get closed)" != true ] && [ "$(get file)" -lt "$count" ]; do
    index=$(get file)
    install_file "$index" && settle || return 1
    if [ "$(get closed)" != true ] && [ "$(get file)" = "$index" ]; then
      say "$(file_value "$index" filename): its installation can't be begun"
      return 1
    fi
  done
  if [ "$(get closed)" != true ]; then owe deploymentBase closed success installed; fi
  pay
}

# go_on: finishes what was begun, then does what the server has to do; 1 where it has to wait, else $sleep has the
# seconds until one asks again
go_on() {
  after=
  if [ -n "$(get begun)" ] && [ "$(get closed)" != true ]; then settle || return 1; fi
  pay && poll || return 1
  case $kind in
    cancelAction) cancel "$action" || return 1 ;;
    deploymentBase) deploy "$action" || return 1 ;;
    *) return 0 ;;
  esac
  sleep=0
}

# random BOUND: a number below it
random() {
  awk -v "seed=$(od -An -N3 -tu4 /dev/urandom)" -v "bound=$1" 'BEGIN { srand(seed); print int(rand() * bound) }'
}

# wait_for SECONDS: a tenth more or less
wait_for() {
  sleep $(($1 - $1 / 10 + $(random $(($1 / 5 + 1)))))
}

# nobody else works here: no other client, and no installation that outlived its client
exec 9> "$folder/lock"
flock -n 9 || { say "another process is at work here, and is waited for" && flock 9; }
# (jq takes an empty file for a good one, unless it is asked how many things are in it)
jq -es 'length == 1 and (.[0] | type == "object")' "$state" > "$folder/reply" 2>&1 || {
  [ ! -e "$state" ] || say "$state can't be read, and is begun anew"
  echo '{}' > "$state.new" && put || exit 2
}
if [ -n "$once" ]; then
  while go_on; do
    if [ "$sleep" != 0 ]; then exit 0; fi
  done
  exit 1
fi
sleep "$(random 10)"
failures=$first_wait
while :; do
  if go_on; then
    failures=$first_wait
    wait_for "$sleep"
  else
    if [ "${after:-0}" -gt "$failures" ]; then wait_for "$after"; else wait_for "$failures"; fi
    failures=$((failures * 2 > interval ? interval : failures * 2))
  fi
done
