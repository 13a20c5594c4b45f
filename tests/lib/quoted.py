"""What a page quotes: a paragraph that names a command or a file, and the block of text below it."""
import re

# A paragraph, and the block of text that follows it, with the language that it is in.
QUOTED = re.compile(r"^([^\n]+)\n\n```(\w*)\n(.*?)^```$", re.MULTILINE | re.DOTALL)
