#!/usr/bin/env python3
"""Opens films in Chromium, goes through their frames, and says what a viewer would be told or would see go wrong.

look-at-films.py [FILM..] [--browser PROGRAM] [--pictures FOLDER] opens each film, by default those of `examples/films`, at
1280 by 720. For each it tells: how many frames it has, the middle and the longest time in ms that a frame took, and its size
in bytes. The time is the script's and the layout's, without the drawing by the browser; a frame that took over 30 ms is tried
up to four times more, as other work on the machine may have held it up, and the least time counts. Told as faults, with
status 1: a message in the console or an error of the script; a part of the page that moves or changes its size between
frames; a page that is larger than the window; a frame that took over 30 ms; checks of a `.why` that the page has otherwise
than they were told. Of a film of over 1,000 frames 1,000 are looked at, in no order.
With --pictures the frame that ADDRESS names, or the last one, is stored as FOLDER/NAME.png; a film is given as FILM#ADDRESS.
"""

import argparse
import html
import json
import re
import subprocess
import sys
import tempfile
from pathlib import Path

FILMS = Path(__file__).resolve().parent.parent / "examples" / "films"
WIDTH, HEIGHT = 1280, 720
MOST_MS = 30
SECONDS = 120

FIRST = """<script>
const lookedErrors = [];
addEventListener("error", event => lookedErrors.push(event.message));
</script>"""

LAST = """<script>
{
  const places = [...document.querySelectorAll(
    "header, #scale, #caption, #line, #answer, #verdict, main, main > *, #log, #cell")];
  const placeOf = part => {
    const { x, y, width, height } = part.getBoundingClientRect();
    return [x, y, width, height].join(" ");
  };
  const timeOf = to => { const start = performance.now(); show(to); root.offsetHeight; return performance.now() - start; };
  const moved = new Set(), times = [], root = document.documentElement, most = 1000;
  const checkWords = ({ rule, path, at, met }) => [rule, path, at, met ? "yes" : "no"].join(" ");
  const toldWords = told => [...told.matchAll(/^([A-Z][0-9]) .{15} path ([01]) at ([0-9]+) (yes|no)/gm)].map(found => found.slice(1).join(" "));
  const isUnlike = at => lineAt(at).startsWith(".why ") && (checksAt(at) ?? []).length > 0
    && checksAt(at).map(checkWords).join() !== toldWords(toldAt(at)).join();
  let first = null, longest = 0, slowest = 0, large = 0, unlike = 0;
  for (let n = 0; n < Math.min(last + 1, most); n++) {
    const to = last < most ? n : n * 7919 % (last + 1), from = at;
    let took = timeOf(to);
    for (let again = 0; took > MOST && again < 4; again++) {
      show(from);
      took = Math.min(took, timeOf(to));
    }
    const now = places.map(placeOf);
    times.push(took);
    if (took > longest) [longest, slowest] = [took, to];
    first ??= now;
    now.forEach((place, part) => { if (place !== first[part]) moved.add(places[part].id || places[part].tagName); });
    if (root.scrollHeight > innerHeight || root.scrollWidth > innerWidth) large++;
    if (isUnlike(to)) unlike++;
  }
  const report = document.createElement("pre"), half = times.sort((a, b) => a - b)[times.length >> 1], seen = times.length;
  report.id = "looked";
  const found = { frames: last + 1, seen, half, longest, slowest, large, unlike, moved: [...moved], errors: lookedErrors };
  report.textContent = JSON.stringify(found);
  document.body.appendChild(report);
}
</script></body>""".replace("MOST", str(MOST_MS))


def browse(browser, *words):
    """What a browser without a window says: its standard output and its standard error."""
    command = [browser, "--headless", "--no-sandbox", "--disable-gpu", "--hide-scrollbars", "--enable-logging=stderr",
               f"--window-size={WIDTH},{HEIGHT}", *words]
    done = subprocess.run(command, capture_output=True, text=True, check=False, timeout=SECONDS)
    return done.stdout, done.stderr


def report_of(browser, film, folder):
    """What the frames of a film showed, gone through by a script that is added to a copy of its page."""
    text = film.read_text(encoding="utf-8")
    if text.count("<head>") != 1 or text.count("</body>") != 1:
        raise ValueError("no film")
    copy = Path(folder) / "looked.html"
    copy.write_text(text.replace("<head>", "<head>" + FIRST).replace("</body>", LAST), encoding="utf-8")
    page, _ = browse(browser, "--dump-dom", copy.as_uri())
    found = re.search(r'<pre id="looked">(.*?)</pre>', page, re.DOTALL)
    if not found:
        raise ValueError("its script did not come to its end")
    return json.loads(html.unescape(found[1]))


def faults_of(report, console):
    """The faults that a report and the lines of a console tell."""
    faults = [f"console: {line}" for line in console] + [f"error: {error}" for error in report["errors"]]
    if report["moved"]:
        faults.append("moves: " + ", ".join(report["moved"]))
    if report["large"]:
        faults.append(f"{report['large']} frames are larger than {WIDTH} by {HEIGHT}")
    if report["unlike"]:
        faults.append(f"{report['unlike']} frames of a .why have other checks than were told")
    if report["longest"] > MOST_MS:
        faults.append(f"frame {report['slowest']} took {report['longest']:.1f} ms")
    return faults


def look(browser, film, address, folder, pictures):
    """Looks at one film, and tells of it. Whether it has no fault."""
    picture = Path(pictures or folder) / f"{film.stem}.png"
    report = report_of(browser, film, folder)
    at = address or str(report["frames"] - 1)
    _, told = browse(browser, f"--screenshot={picture}", f"{film.as_uri()}#{at}")
    faults = faults_of(report, [line for line in told.splitlines() if "CONSOLE" in line])
    print(f"{film.name}: {report['frames']} frames, {report['seen']} looked at, "
          f"half of them in {report['half']:.1f} ms, each in {report['longest']:.1f}, {film.stat().st_size:,} bytes")
    for fault in faults:
        print(f"  {fault}")
    return not faults


def main():
    parser = argparse.ArgumentParser(description=__doc__, formatter_class=argparse.RawDescriptionHelpFormatter)
    parser.add_argument("films", nargs="*", metavar="FILM[#ADDRESS]")
    parser.add_argument("--browser", default="chromium")
    parser.add_argument("--pictures", metavar="FOLDER")
    asked = parser.parse_args()
    films = asked.films or [str(film) for film in sorted(FILMS.glob("*.html"))]
    if not films:
        sys.exit("no film: check-films.py PROGRAM --store makes those of examples/films")
    good = True
    with tempfile.TemporaryDirectory() as folder:
        for film in films:
            path, _, address = film.partition("#")
            try:
                good &= look(asked.browser, Path(path).resolve(), address, folder, asked.pictures)
            except (OSError, ValueError, subprocess.TimeoutExpired) as fault:
                print(f"{path}: {fault}")
                good = False
    sys.exit(0 if good else 1)


if __name__ == "__main__":
    main()
