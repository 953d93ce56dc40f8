# An ordinary test file that uses the fixture. The case keeps the files of each test, and the report. With jitter some
# tests may fail, because their waits take longer than the tests allow.
mkdir "$OUT"
cp "$CASES/tests_of_a_node.py" "$OUT/test_node.py"
cd "$OUT"
"$PYTHON" -m pytest -p canbusd.pytest_plugin -p no:cacheprovider -q --durations=0 --canbusd-keep=all --basetemp "$OUT/kept" \
    test_node.py >"$OUT/report" || case $CANBUSD_RUN_OPTIONS in *"--jitter 0") exit 1 ;; esac
