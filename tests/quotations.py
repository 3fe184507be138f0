"""The quotations in the comments of specs/ and in docs/: each stands in a paper, and in the one that it names, or in docs/DECISIONS.md.

A quotation is a text in double quotes, and `..` in it is an omission. `01: ".."`, `02, M-100: ".."` and `demand 3: ".."` name the paper,
`DECISIONS: ".."` docs/DECISIONS.md. Line breaks, `*` and backticks do not matter. The papers are no part of the tree: tests/quotations.txt
lists the digests of the quotations that were found in them.
"""
import hashlib
import re

COMMENT = re.compile(r'(?:^|\s)--(?:\s(.*)|$)')
QUOTED = re.compile(r'"((?:[^"\n]|\n(?!\s*(?:\n|[-*|#]+ |$)))+)"')
SOURCE = re.compile(r'(?:\b(00[0-4]|0[1-3])|\b(demand) \d)(?:, [^":;|]*)?: $|(DECISIONS)(?:: |\.md, )$')
JOINED = re.compile(r'[,;]?[ \n](?:and |or )?')
DECISIONS = 'docs/DECISIONS.md'


def plain(text):
    """A text without its layout."""
    return re.sub(r'\s+', ' ', re.sub(r'[*`#]', '', text)).strip()


def comments(text):
    """The comments of a file of specs/, each on its line."""
    return '\n'.join((match[1] or '').strip() if (match := COMMENT.search(line)) else '' for line in text.splitlines())


def prose(text):
    """A page of docs/ without what stands in it as code, each word on its line."""
    text = re.sub(r'(?ms)^```.*?^```', lambda block: re.sub(r'[^\n]', '', block[0]), text)
    return re.sub(r'`[^`\n]*`', lambda span: span[0].replace('"', "'"), text)


def quotations(text):
    """The quotations of a text: the line, the paper that is named, or none, and the words."""
    source, end = '', None
    for match in QUOTED.finditer(text):
        before = re.sub(r'\s+', ' ', text[:match.start()].rpartition('\n\n')[2])
        if named := SOURCE.search(before):
            source = named[1] or named[2] or named[3]
        elif end is None or not JOINED.fullmatch(text[end:match.start()]):
            source = ''
        end = match.end()
        yield text.count('\n', 0, match.start()) + 1, source, plain(match[1])


def all_quotations(texts):
    """The quotations of a tree: file, line, paper and words."""
    for path, text in texts.items():
        if path.endswith('.antt') or re.fullmatch(r'docs/\w+\.md', path):
            for line, source, words in quotations(comments(text) if path.endswith('.antt') else prose(text)):
                yield path, line, source, words


def entry(source, words):
    """The line of a quotation in the list: the digest of paper and words, and the first words."""
    digest = hashlib.sha256(f'{source} {words}'.encode()).hexdigest()[:12]
    return f'{digest} {source}{": " if source else ""}{" ".join(words.split()[:6])}'


def stands(words, text):
    """Whether a quotation stands in a text, its parts in order. Its first letter may be large or small, its last mark left out."""
    at = 0
    for part in filter(None, re.split(r'\s*\.\.+\s*', words)):
        forms = [part, part[0].swapcase() + part[1:]]
        forms += [form[:-1] for form in forms if part[-1] in '.,;:' and len(part) > 1]
        places = [(place, form) for form in forms if (place := text.find(form, at)) >= 0]
        if not places:
            return False
        place, form = min(places)
        at = place + len(form)
    return True


def papers(paths):
    """The papers in folders and files, by number. Of a file whose name has none the lines that it quotes are taken, which are the demands."""
    found = {}
    for path in [file for path in paths for file in (sorted(path.iterdir()) if path.is_dir() else [path])]:
        text = path.read_text(errors='replace')
        if number := re.match(r'\d+', path.name):
            found[number[0]] = plain(text)
        else:
            found['demand'] = plain('\n'.join(line[1:] for line in text.splitlines() if line.startswith('>')))
    return found


def held(texts, known):
    """The lines of the list for the quotations that stand in the papers, and what is wrong with the others."""
    lines, faults = set(), []
    for path, line, source, words in all_quotations(texts):
        if source == 'DECISIONS':
            continue
        places = [number for number, text in known.items() if stands(words, text)]
        if source in places or places and not source:
            lines.add(entry(source, words))
        elif places:
            faults.append(f'{path}:{line}: "{words}" stands in {", ".join(places)}, and not in {source}')
        else:
            faults.append(f'{path}:{line}: "{words}" stands in no paper; a decision of ours is quoted as DECISIONS: ".."')
    return sorted(lines), faults


def quotation_faults(texts, listed):
    """The quotations that are not on the list, and those of docs/DECISIONS.md that do not stand there."""
    decisions = plain(texts[DECISIONS])
    for path, line, source, words in all_quotations(texts):
        if source == 'DECISIONS':
            if not stands(words, decisions):
                yield f'{path}:{line}: {DECISIONS} has no "{words}"'
        elif entry(source, words) not in listed:
            yield (f'{path}:{line}: {source}{": " if source else ""}"{words}" is not on tests/quotations.txt: tests/claims --papers FOLDER looks for it in '
                   f'the papers; a decision of ours is quoted as DECISIONS: ".."')
