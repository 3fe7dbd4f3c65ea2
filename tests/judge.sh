# What the tests in the shell share. They source it from the top of the repository.
passed=0 failed=0

judge() { # judge WHAT WANTED GOT
  if [ "$2" = "$3" ]; then
    passed=$((passed + 1))
  else
    failed=$((failed + 1))
    printf '%s: %s\n  wanted: %s\n  got:    %s\n' "$(basename "$0" .sh)" "$1" "$2" "$3" >&2
  fi
}
