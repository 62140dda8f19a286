"""The printable page of slips: for each player a name, a link and the link as a QR code."""
import html, io, shutil, subprocess
from desk.plain import Trouble

PAGE = """<!doctype html>
<html lang="en"><head><meta charset="utf-8"><meta name="viewport" content="width=device-width, initial-scale=1">
<meta name="referrer" content="no-referrer"><title>Slips – {title}</title><style>
@page {{ size: A4; margin: 10mm; }}
* {{ box-sizing: border-box; margin: 0; }}
body {{ font: 10.5pt/1.35 "DejaVu Sans", Verdana, sans-serif; color: #111; background: #fff; padding: 4mm; max-width: 210mm; margin: auto; }}
.word {{ padding: 3mm 0 5mm; }}
main {{ display: grid; grid-template-columns: 1fr 1fr; border-top: 1px dashed #999; border-left: 1px dashed #999; }}
.slip {{ display: grid; grid-template-columns: 34mm 1fr; gap: 4mm; align-items: center; padding: 5mm; min-height: 52mm;
  border-right: 1px dashed #999; border-bottom: 1px dashed #999; break-inside: avoid; }}
.slip svg {{ width: 34mm; height: 34mm; display: block; }}
.slip:not(:has(svg)) {{ grid-template-columns: 1fr; }}
h2 {{ font-size: 13.5pt; line-height: 1.2; overflow-wrap: anywhere; }}
.at {{ color: #444; font-size: 9pt; margin-bottom: 2.5mm; }}
.link {{ font: 8.5pt/1.3 "DejaVu Sans Mono", monospace; overflow-wrap: anywhere; margin-top: 1mm; }}
.keep {{ color: #444; font-size: 8pt; margin-top: 2mm; }}
@media print {{ .word {{ display: none; }} body {{ padding: 0; }} }}
</style></head><body>
<p class="word"><b>{title}.</b> Print this page, cut along the lines, and give each player their own slip. Who has a slip plays
as its player: keep this file to yourself.</p>
<main>
{slips}
</main></body></html>
"""
SLIP = """<section class="slip">{code}<div><h2>{name}</h2><p class="at">{written}{title} · {control}{team}</p>
<p>Scan the code, or open this link:</p><p class="link">{link}</p><p class="keep">This is your own key. Keep it to yourself.</p></div></section>"""


def link(address, player):
    """A player's own link. The key stands behind the #, which no browser sends to a server."""
    return f"{address}/#key={player['key']}"


def qr_maker():
    """A function from a text to its QR code as SVG, by what the machine has; or None where it has neither."""
    try:
        import segno
    except ImportError:
        return by_program if shutil.which("qrencode") else None

    def by_library(text):
        out = io.BytesIO()
        segno.make(text, error="m", micro=False).save(out, kind="svg", xmldecl=False, svgns=True, omitsize=True, border=2)
        return out.getvalue().decode().strip()
    return by_library


def by_program(text):
    """By qrencode. The text goes by its input, since every user of a machine can read the words of its programs."""
    done = subprocess.run(["qrencode", "--type=SVG", "--level=M", "--margin=2", "--output=-"], input=text.encode(),
                          capture_output=True, check=False)
    if done.returncode:
        raise Trouble(f"qrencode failed: {done.stderr.decode().strip()}")
    return done.stdout[done.stdout.index(b"<svg"):].decode().strip()


def slips_page(title, control, address, players):
    """The page, and whether it has codes. Each player has a name as written in the list beside the one of the evening."""
    code = qr_maker()
    slips = []
    for p in players:
        text = link(address, p)
        slips.append(SLIP.format(code=code(text) if code else "", name=html.escape(p["name"]), title=html.escape(title), control=control,
                                 written=f"{html.escape(p['written'])}<br>" if p["written"] != p["name"] else "",
                                 team=f" · {html.escape(p['team'])}" if p["team"] else "",
                                 link=html.escape(text).replace("#", "<wbr>#")))
    return PAGE.format(title=html.escape(title), slips="\n".join(slips)), code is not None
