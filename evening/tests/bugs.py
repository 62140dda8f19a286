#!/usr/bin/python3
"""bugs.py [NAME ..]   plants bugs in a copy of the pages and of nginx's configuration, and runs the browser test over each.

Says of each whether it was caught, and where; ends with status 1 where one was not. Ten runs take some ten minutes."""
import pathlib, shutil, subprocess, sys, tempfile

HERE = pathlib.Path(__file__).resolve().parent
BUGS = {  # what is wrong: file, and pairs of the text that stands there and of what is put in its place
    "old answers are shown": ("site/js/hear.js", [("  if (!fresh && a.seen < page.gameSeen) return;\n", "")]),
    "connections to the host are kept": ("nginx.conf", [("max_fails=0;", "max_fails=0; keepalive 8;"), ("proxy_http_version 1.0;", "proxy_http_version 1.1;"),
                                                        ("proxy_set_header Connection close;", 'proxy_set_header Connection "";')]),
    "answers to one player are kept for others": ("nginx.conf", [("proxy_cache_bypass $http_authorization;", ""), ("proxy_no_cache $http_authorization;", "")]),
    "keys are logged": ("nginx.conf", [("'$remote_addr [", "'$http_authorization $remote_addr [")]),
    "the key stays in the address": ("site/js/play.js", [("if (location.hash) history", "if (false) history")]),
    "a move is not sent again": ("site/js/play.js", [("    s.flying = false;\n", "")]),
    "Black sees White's side": ("site/js/board.js", [("below === 'white' ? [7", "true ? [7")]),
    "each pawn becomes a queen": ("site/js/board.js", [("        this.onMove(m);\n      });\n      box", "        this.onMove(moves[0]);\n      });\n      box")]),
    "a late hall screen finds no running game": ("site/js/hall.js", [("k > 0 && downTo > 0", "k > 0 && downTo > 1000")]),
    "the final table is not read": ("site/js/api.js", [("'../table.txt'", "'../tables.txt'")]),
}


def caught(name):
    """Whether the browser test fails over a copy with the bug, and its last words."""
    file, changes = BUGS[name]
    with tempfile.TemporaryDirectory(prefix="bug-") as held:
        copy = pathlib.Path(held) / "evening"
        shutil.copytree(HERE.parent, copy)
        text = (copy / file).read_text(encoding="utf-8")
        for old, new in changes:
            assert text.count(old) == 1, (name, old)
            text = text.replace(old, new)
        (copy / file).write_text(text, encoding="utf-8")
        done = subprocess.run([copy / "tests/browser.py"], capture_output=True, text=True)
    words = (done.stdout + done.stderr).strip().splitlines()
    if "skipped" in words[-1]:
        sys.exit(words[-1])
    return done.returncode != 0, words[-1][:150]


def main():
    missed = 0
    for name in sys.argv[1:] or BUGS:
        found, words = caught(name)
        missed += not found
        print(f"{'caught' if found else 'MISSED'}  {name}: {words}", flush=True)
    return missed > 0


if __name__ == "__main__":
    sys.exit(main())
