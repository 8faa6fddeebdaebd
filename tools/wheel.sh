#!/usr/bin/env bash
# Makes a wheel of the package for Python with the shared object in it: tools/wheel.sh OUT [LIBRARY].
# Without LIBRARY it is the proved archive that `rt lib` leaves. Then the wheel is installed in a fresh
# environment, without the network, and used. Needs a python3 with the modules build, setuptools,
# wheel and venv (Debian: python3-build, python3-venv, by /usr/bin/python3).
set -euo pipefail
cd "$(dirname "$0")/.."
[ $# -ge 1 ] || { echo "words: OUT [LIBRARY]" >&2; exit 2; }
mkdir -p "$1"
out=$(realpath "$1")
library=$(realpath "${2:-crates/foresight_c/out/libforesight_c.a}")
[ -f "$library" ] || { echo "wheel: no $library: rt lib in crates/foresight_c" >&2; exit 1; }
python=
for one in python3 /usr/bin/python3; do
  if "$one" -c 'import build, setuptools, wheel, venv' 2> /dev/null; then python=$one; break; fi
done
if [ -z "$python" ]; then
  echo "wheel: NOT RUN, since no python3 has the modules build, setuptools, wheel and venv"
  exit 0
fi
work=$(mktemp -d)
trap 'rm -rf "$work"' EXIT
. embedding/programs.sh
mkdir "$work/foresight"
cp embedding/python/{pyproject.toml,setup.py} "$work/"
library_version > "$work/VERSION"
cp embedding/foresight.py "$work/foresight/__init__.py"
touch "$work/foresight/py.typed"
whole_library "$library" "$work/whole.a"
shared_library "$work/whole.a" "$work/foresight/libforesight.so"
(cd "$work" && "$python" -m build --wheel --no-isolation --outdir "$out") > "$work/log" 2>&1 \
  || { cat "$work/log"; exit 1; }
wheel=$out/foresight-$(library_version)-py3-none-linux_x86_64.whl

"$python" -m venv "$work/venv"
"$work/venv/bin/pip" install --quiet --disable-pip-version-check --no-index "$wheel"
(cd "$work/venv" && bin/python -c '
import foresight
s = foresight.Session("map m; handler f(k) { let a = get(m, k); put(m, k, 1); reply a; }\n%%\n")
assert s.serve(["f a", "f a"]) == ["nil", "1"]')
echo "wheel: $(basename "$wheel"), installed in a fresh environment and used"
