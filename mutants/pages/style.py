"""The style of all pages, and the few lines of script that sort their tables and filter their survivors.

A page can be read without both: no colour says something that nothing else says, and the script is only for comfort.
"""

from pathlib import Path

# The colours by their use. On each background of a theme all of them but `line` have a contrast of at least 4.5 to 1.
LIGHT = "--ground: #fff; --ink: #1a1a1a; --soft: #595959; --line: #c9c9c9; --kill: #1d4f7c; --live: #a63c06"
DARK = "--ground: #16181b; --ink: #e9e7e3; --soft: #adadad; --line: #4d5157; --kill: #8ebbe8; --live: #ff9e6e"
THEMES = f""":root {{ color-scheme: light dark; {LIGHT} }}
@media (prefers-color-scheme: dark) {{ :root {{ {DARK} }} .cells img {{ filter: invert(1) hue-rotate(180deg) }} }}
@media print {{ :root {{ color-scheme: light; {LIGHT} }} .cells img {{ filter: none }} }}

"""
STYLE = THEMES + Path(__file__).with_name("style.css").read_text(encoding="utf-8")
SCRIPT = "\n" + Path(__file__).with_name("script.js").read_text(encoding="utf-8")
