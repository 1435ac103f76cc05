# What the scripts of a forge share. FORGE is the folder in which it all lives, FORGE_SETTINGS the settings of the gate,
# GATE_PORT the file that has its port.
: "${FORGE:?the folder of the forge}" "${FORGE_SETTINGS:?the settings of the gate}" "${GATE_PORT:=$FORGE/port}"
export GIT_AUTHOR_NAME=forge GIT_AUTHOR_EMAIL=forge@localhost
export GIT_COMMITTER_NAME=forge GIT_COMMITTER_EMAIL=forge@localhost

# Which projects stand in a queue, or in any, by the settings.
projects_of() {
  awk -F '"' -v queue="${1-}" '
    /^\[/ { table = $0 }
    table == "[[project]]" && /^name/ { name = $2 }
    table == "[[project]]" && /^queue/ && (queue == "" || $2 == queue) { print name }' "$FORGE_SETTINGS"
}

# An id for a delivery that is told by hand: of its kind, of this number, and of this revision if it names one.
id_of() {
  local kind number
  case $1 in
    revision) kind=1 ;;
    approved) kind=2 ;;
    landed) kind=3 ;;
    refused) kind=4 ;;
    result) kind=5 ;;
  esac
  number=$(printf '%016x' "$2")
  printf '0000000%d-%04d-%s-8000-%s' "$kind" "${3-0}" "${number:0:4}" "${number:4}"
}

# Posts a delivery at a door, again until an answer has come whole, and prints it. 503 is sent again too.
post() {
  local answer
  while :; do
    if answer=$(curl --silent --max-time 10 --write-out '\n%{http_code}' --data-binary "$2" \
      "http://127.0.0.1:$(cat "$GATE_PORT")/$1") && [ "${answer##*$'\n'}" != 503 ]; then
      printf '%s\n' "${answer%$'\n'*}"
      return
    fi
    sleep 0.1
  done
}

# Asks the gate for a page, again until it has come.
page() {
  until curl --silent --fail --max-time 10 "http://127.0.0.1:$(cat "$GATE_PORT")/$1"; do
    sleep 0.1
  done
}

# A member of a JSON object: a number, or a text without escapes.
member() {
  sed -n "s/.*\"$2\":\"\{0,1\}\([^,\"}]*\).*/\1/p" <<<"$1"
}
