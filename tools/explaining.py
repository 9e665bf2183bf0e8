"""The explanation of an error: its line with a caret, the row of its key, the annotation of each claim, and the repairs."""
import re
import unicodedata

import pages
import program
import sources

NAME = r"(?:this\.)?[\w$]+"
SHIFT = r"(?: [+-] [\w$.]+)+"
POST = re.compile(f"value((?:{SHIFT})?) < ({NAME})" + r"\.length")
ANNOTATION = re.compile(r"@\w+(?:\([^)]*\))?")
# What an annotation may take from the words of its claim: a text in quotes, or a number outside them.
TAKEN = re.compile(r'"([^"]*)"|(?<=[ (])(\d+)')
# Where a row of ERRORS.md has a number, a name, or a name and a number that its annotations take, other claims have another one.
FORMS = ((r"\d+", r"-?\d+"), (r"[\w$]+", NAME), (r"[\w$]+ [+-] \d+", NAME + r" [+-] \d+"))


def offset(words):
    """An offset as an annotation has it, of the words that are added in a claim: ` + n - 2` is `n - 2`, and ` - n` is `-n`."""
    return words[3:] if words.startswith(" + ") else "-" + words[3:] if words.startswith(" - ") else words


def claims():
    """The rows of ERRORS.md on claims: a pattern for the words, the texts that stand in its groups there, and the annotations."""
    for row in pages.claims():
        annotations = ANNOTATION.findall(row["annotation"])
        texts = [text or number for annotation in annotations for text, number in TAKEN.findall(annotation)]
        forms = {text: next(form for shape, form in FORMS if re.fullmatch(shape, text)) for text in texts}
        forms.update({f" + {text}": SHIFT for annotation in annotations for text in re.findall(r'offset = "([^"]*)"', annotation)})
        # An added part begins with a blank; a name or a number isn't a part of a word.
        parts = "|".join(("" if part.startswith(" ") else r"(?<!\w)") + re.escape(part) for part in sorted(forms, key=len, reverse=True))
        pieces = re.split(rf"({parts})(?!\w)", row["claim"].strip("`")) if forms else [row["claim"].strip("`")]
        words = "".join(f"({forms[piece]})" if at % 2 else re.escape(piece) for at, piece in enumerate(pieces))
        yield re.compile(words), [offset(piece) for piece in pieces[1::2]], annotations


def filled(annotation, values):
    """An annotation with the texts of a claim in place of the row's; where the claim doesn't have them its name alone."""
    if not all((text or number) in values for text, number in TAKEN.findall(annotation)):
        return annotation.split("(")[0]
    return TAKEN.sub(lambda found: values[found[2]] if found[2] else f'"{values[found[1]]}"', annotation)


def annotations_of(claim):
    """The annotations that say a claim, told without its subject."""
    for pattern, texts, annotations in claims():
        found = pattern.fullmatch(claim)
        if found:
            values = dict(zip(texts, map(offset, found.groups())))
            return [filled(annotation, values) for annotation in annotations]
    return []


def post_annotations(subject, claim):
    """The annotations that promise a bound of a parameter or a field where a method returns."""
    added, array = POST.fullmatch(claim).groups()
    bound = f'targetValue = "{array}"' + (f', offset = "{offset(added)}"' if added else "")
    return [f'@EnsuresLTLengthOf(value = "{subject}", {bound})', f'@EnsuresLTLengthOfIf(expression = "{subject}", result = .., {bound})']


def claiming():
    """The names of the annotations that are told of claims."""
    texts = [annotation for _, _, annotations in claims() for annotation in annotations] + post_annotations("", "value < a.length")
    return {text.split("(")[0] for text in texts}


def of_claim(error):
    """The line on the annotations of the claim that an error tells."""
    subject, _, claim = error.claim.partition(": ")
    said = post_annotations(subject, claim) if error.key == "post.claim" else annotations_of(claim)
    return f"{claim} of {subject}: said by {' or '.join(said)}"


def caret(line, column):
    """The line that points at a column of another line, under tabs, broad letters and accents too."""
    widths = ("" if unicodedata.combining(letter) else "\t" if letter == "\t" else "  " if unicodedata.east_asian_width(letter) in "WF" else " " for letter in line[: column - 1])
    return "".join(widths) + "^"


def of_key(key, claims=()):
    """The lines on a key: its row of ERRORS.md, lines on claims, and the rows of REPAIRS.md that have it."""
    row = pages.keys()[key]
    lines = [f"{key}: {row['says']}", *(f"  {line}" for line in claims)]
    lines += [f"  {head}: {cell}" for head, cell in row.items() if head not in ("key", "says") and cell]
    repairs = [(heading, row) for heading, row in pages.repairs() if f"`{key}`" in row["keys"]]
    lines += ["  right code that is rejected so (./explain NUMBER shows it, and the code that is accepted):"] if repairs else []
    return lines + [f"    {pages.number(row)} {heading}: {row['why']}" for heading, row in repairs]


def of_limit(name):
    """The lines on a limit: its row of ERRORS.md."""
    row = pages.limits()[name]
    return [f"limit: {name}: {row['says']} (status {row['status']})"]


def of_repair(number):
    """The lines on a row of REPAIRS.md; none where no row has the number."""
    for heading, row in pages.repairs():
        if pages.number(row) == number:
            parts = [f"  {head}: {cell}" for head, cell in row.items() if head not in ("", "why")]
            return [f"{number} {heading}: {row['why']}", *parts, f"  whole sources: {' '.join(pages.sources(row))}"]
    return []


def errors_at(lines, errors, line, column):
    """The errors at a place: those whose token has it."""
    shown = sources.line_at(lines, line)
    return [error for error in errors if error.line == line and (error.column == column or error.column < column < sources.token_end(shown, error.column))]


def of_errors(name, shown, errors):
    """The words on errors that start at one place of a line: as `check` tells them, the line with a caret, and each key once."""
    line, column = errors[0].line, errors[0].column
    words = [f"{name}:{line}:{column}: {error.words}" for error in errors]
    words += [shown, caret(shown, column)]
    for key in dict.fromkeys(error.key for error in errors):
        words += of_key(key, [of_claim(error) for error in errors if error.key == key and error.claim])
    return words


def of_place(name, lines, errors, line, column):
    """The words on the errors at a place of a text of these lines; none where there is no error."""
    found = errors_at(lines, errors, line, column)
    starts = dict.fromkeys(error.column for error in found)
    return [words for start in starts for words in of_errors(name, sources.line_at(lines, line), [error for error in found if error.column == start])]
