#!/bin/sh
# Performs the steps of a newcomer on the first day, as the documents print them. Needs a fresh minimal Debian 12 or 13.
# Usage: tests/gate/first_day.sh ROUTE, at the top of a clone, as root; test_first_day.py runs it in such systems. ROUTE is
#   path   the route in README: a clone, PYTHONPATH, and Debian's packages
#   here   the same route without installing packages, which `make check` runs in a clone
#   venv   the route in docs/PYTHON.md: a virtual environment with Debian's packages, without a network
#   pipx   the commands of the wheel, installed by pipx, with Debian's python-can
#   user   make install into a folder that belongs to the user
#   pip    a virtual environment into which pip installs the package and its dependencies; status 77 if pip finds none
#   check  the tests of the program, run with the command in README
set -eu
export DEBIAN_FRONTEND=noninteractive
python=python3

# Runs commands from a document exactly as they are printed. Each command is named by the beginning of its line.
printed() {
    document=$1
    shift
    for begin; do
        line=$(sed -n 's/^    \(\$ \)\{0,1\}//p' "$document" | grep -m 1 -F -- "$begin") || {
            echo "$document has no command that begins with: $begin"
            exit 1
        }
        case $line in "$begin"*) ;; *) echo "$document: $line"; exit 1 ;; esac
        echo "+ $line"
        eval "$line"
    done
}

# Runs a command from a table in a document exactly as it is printed. The command is named by its beginning.
in_table() {
    line=$(grep -o "\`$2[^\`]*\`" "$1" | head -n 1 | tr -d '\`')
    [ -n "$line" ] || {
        echo "$1 has no command in a table that begins with: $2"
        exit 1
    }
    echo "+ $line"
    eval "$line"
}

# Prints the only block of Python in a document that contains this word.
block() {
    awk -v word="$2" '/^```python$/ { text = ""; on = 1; next } /^```$/ { if (on && text ~ word) printf "%s", text; on = 0 }
        on { text = text $0 "\n" }' "$1"
}

install() {
    apt-get update -qq
    # shellcheck disable=SC2086
    apt-get install -qq -y --no-install-recommends $1 >/dev/null
}

# Prints the packages listed on the line of a document that installs this package.
packages_of() {
    sed -n "s/.*apt-get install \([^\`]*\).*/\1/p" "$1" | grep -m 1 -- "$2"
}

# Runs the first test in the README, the test in the guide, the examples, and a client with a server in a second terminal.
try_package() {
    block README.md test_bus_off >test_bus_off.py
    block docs/GUIDE.md test_a_frame_that_arrives_twice >test_twice.py
    block docs/PYTHON.md 'interface="canbusd"' >client.py
    "$@"
    $python -m pytest -q -p no:cacheprovider test_twice.py
    printed docs/GUIDE.md "python3 -m pytest examples/python"
    ./canbusd serve can0,can1 >served 2>&1 &
    server=$!
    for _ in 1 2 3 4 5 6 7 8 9 10; do
        grep -q listening served || sleep 0.5
    done
    grep -q listening served || {
        cat served
        exit 1
    }
    $python client.py | grep "ID: *0*123 .* 01 02 03"
    ./canbusd dump can0 >dumped &
    dump=$!
    for _ in 1 2 3 4 5 6 7 8 9 10; do
        printed docs/GUIDE.md "./canbusd send can0" "./canbusd status"
        grep -q "123 .* 11 22 33 44" dumped && break
        sleep 0.5
    done
    kill $dump
    grep "123 .* 11 22 33 44" dumped
    $python examples/python/first_session.py
    kill -TERM $server
    wait $server
    $python -m pytest -q -p no:cacheprovider test_bus_off.py
}

# Runs the installed commands in a folder outside the clone.
try_commands() {
    cd /
    canbusd --version
    canbusd-run --version
    candump2bench --help >/dev/null
    canbusd serve can0,can1 >/tmp/served 2>&1 &
    server=$!
    for _ in 1 2 3 4 5 6 7 8 9 10; do
        grep -q listening /tmp/served || sleep 0.5
    done
    canbusd status | grep can1
    kill -TERM $server
    wait $server
}

# Runs README's first command, which needs no packages, and compares its output with the printed output.
try_first() {
    printed README.md "./canbusd bench can0,can1 <" >first
    sed 1d first | cmp - examples/first_frame.out
    ./canbusd --help | grep "canbusd <COMMAND>\|canbusd COMMAND"
}

# Creates the record and the page of the guide.
try_page() {
    printed docs/GUIDE.md "./canbusd bench --record run.rec" "./canbusd report --names can0,can1,can2 run.rec"
    ./canbusd audit run.rec
    grep -q "</html>" run.html
}

case $1 in
path | here)
    try_first
    [ "$1" = here ] || install "$(packages_of README.md python3-pytest)"
    try_package printed README.md "export PYTHONPATH=" "python3 -m pytest"
    try_page
    ;;
venv)
    install "$(packages_of docs/PYTHON.md python3-venv) python3-pytest"
    printed docs/PYTHON.md "make wheel" "/usr/bin/python3 -m venv --system-site-packages venv" "pip install --no-deps"
    try_package true
    try_commands
    ;;
pipx)
    install "$(packages_of docs/PYTHON.md python3-venv) pipx"
    printed docs/PYTHON.md "make wheel"
    # Without a network, pipx takes pip from this folder, because it upgrades its own copy of pip.
    export PIP_FIND_LINKS=/usr/share/python-wheels
    in_table docs/PYTHON.md "pipx install --system-site-packages"
    export PATH="$HOME/.local/bin:$PATH"
    try_commands
    ;;
user)
    install "$(packages_of README.md python3-pytest) make"
    in_table docs/PYTHON.md "make install PREFIX=" >installed
    eval "$(grep export installed)"
    block README.md test_bus_off >test_bus_off.py
    $python -m pytest -q -p no:cacheprovider test_bus_off.py
    export PATH="$HOME/inst/bin:$PATH"
    try_commands
    ;;
pip)
    install python3-venv
    python3 -m venv venv
    . venv/bin/activate
    pip download -q --no-deps -d wheels setuptools || exit 77
    pip install -q pytest ./python
    try_package true
    ;;
check)
    try_first
    scripts/check --yes
    ;;
*)
    sed -n '2,/^set/s/^# \{0,1\}//p' "$0"
    exit 2
    ;;
esac
echo "the first day went well"
