"""The words, the patterns and the faults of the assembler's language, which an assembler in a browser has too
(tools/cdc6600/driving/assembler.js): language.json has them."""

import json
import re
from pathlib import Path

LANGUAGE = json.loads(Path(__file__).resolve().with_name("language.json").read_text(encoding="utf-8"))
PATTERNS: dict[str, re.Pattern[str]] = {name: re.compile(it) for name, it in LANGUAGE["patterns"].items()}
