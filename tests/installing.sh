# What the tests in the shell share that install something. They source it from the top of the repository.

one_by_one() { # one_by_one COMMAND..: the system's packages have one lock, for which apt-get doesn't wait
  mkdir -p .build
  (
    exec 8> .build/installing
    ! command -v flock > /dev/null || flock 8
    "$@"
  )
}
