"""The decimals that a schema's comments give its columns. It has no command of its own."""
import re
import sys


def scales_of(text, path):
    """Of each stream the columns that a comment `-- NAME: N decimals` scales. The comment stands behind the stream's
    name, and in front of the next stream's."""
    scales = {}
    bare = re.sub(r'--.*', lambda it: ' ' * len(it[0]), text)
    heads = list(re.finditer(r'\bstream\s+(\w+)\s*\(', bare))
    for head, after in zip(heads, [*heads[1:], None]):
        end = after.start() if after else len(text)
        part, columns = text[head.end() : end], set(re.findall(r'(\w+)\s+\w+', bare[head.end() : end]))
        for comment in re.finditer(r'--.*', part):
            for name, many in re.findall(r'(\w+): (\d+) decimals?\b', comment[0]):
                line = text.count('\n', 0, head.end() + comment.start()) + 1
                if name not in columns:
                    sys.exit(f'{path}:{line}: a comment scales {name}, and the stream {head[1]} has no such column')
                if int(many) > 19:
                    sys.exit(f'{path}:{line}: a comment gives {name} {many} decimals, and 19 are the most')
                scales.setdefault(head[1], {})[name] = int(many)
    return scales
