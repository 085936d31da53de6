#!/usr/bin/env python3
"""manuals.py [--check]: writes man/ and completions/ from the help texts of `shelf` and `certify`.

The texts are the constants of src/text.rt of crates/shelf_core, crates/shelf_register and crates/certify_core, which `--help` prints. With
--check it writes nothing, and ends with 1 where a file isn't what it would write."""
import pathlib
import re
import sys

TOP = pathlib.Path(__file__).resolve().parent.parent
SEE = {"shelf": "openssl(1), certify(1)", "certify": "shelf(1)"}


def constants(crate):
    """The constant texts of a crate, by name."""
    code = (TOP / "crates" / crate / "src" / "text.rt").read_text()
    found = re.findall(r'^const ([A-Z]+): &str = "(.*?)";$', code, re.M | re.S)
    return {name: re.sub(r"\\\n\s*", "", text).replace("\\n", "\n").replace('\\"', '"') for name, text in found}


def paragraphs(text):
    """Blocks of lines, between empty lines."""
    return [block.split("\n") for block in text.strip("\n").split("\n\n")]


def rows(lines):
    """Lines of two columns as pairs.

    A line that begins where the second column does goes on with the last row; a long first column has a line alone.
    """
    found, column = [], None
    for line in lines:
        if column and not line[:column].strip():
            found[-1][1] = f"{found[-1][1]} {line.strip()}".lstrip()
            continue
        match = re.match(r"( *\S.*?)( {2,})(\S.*)$", line)
        if match:
            column = match.end(2)
            found.append([match.group(1).strip(), match.group(3)])
        else:
            found.append([line.strip(), ""])
    return found


def is_table(lines):
    return lines[0].startswith("  ")


def statuses(lines):
    """Exit statuses: a digit, two spaces and a text, also two of them on a line."""
    found = []
    for line in lines:
        found += re.findall(r"(?:^|(?<=\s))(\d)  (\S.*?)(?=\s{2,}\d  |$)", line)
    return [list(pair) for pair in sorted(found)]


class Program:
    """What the help of a program says: commands with a line each, statuses, and the help of each subcommand."""

    def __init__(self, name, crate, summary="", more=None):
        texts = constants(crate)
        for key, text in constants(more).items() if more else []:
            texts[key] = texts[key] + "\n" + text.lstrip("\n") if key in texts else text
        self.name, self.version = name, texts["VERSION"].strip()
        self.summary, self.commands, self.prose, self.statuses = summary, [], [], []
        for lines in paragraphs(texts["HELP"]):
            first = lines[0].strip()
            if first.split(" ")[0] == name and "  " in first:
                self.commands += rows(lines)
            elif statuses(lines):
                self.statuses = statuses(lines)
                text = [line for line in lines if not re.match(r"\s*\d  ", line)]
                before = " ".join(text).split(". ")
                if len(before) > 1:
                    self.prose.append(before[0] + ".")
            else:
                self.prose.append(" ".join(line.strip() for line in lines))
        if not self.summary:
            self.summary = self.prose.pop(0)
        self.commands = [[re.sub(r"\s+", " ", use), text] for use, text in self.commands]
        self.helps = {key.lower(): paragraphs(text) for key, text in texts.items() if key not in ("HELP", "VERSION")}
        if not self.commands or not self.statuses:
            sys.exit(f"manuals: the help of {name} has another form")

    def subcommands(self):
        """Each subcommand with its line."""
        found = []
        for use, text in self.commands:
            word = use.split(" ")[1] if " " in use else ""
            if re.fullmatch(r"[a-z]+", word) and word not in (other for other, _ in found):
                found.append((word, text))
        return found

    def options(self, word):
        """Options of a subcommand: the name, its value, and what it says."""
        found = []
        for lines in self.helps.get(word, []):
            for use, text in rows(lines) if is_table(lines) else []:
                match = re.match(r"(--[a-z-]+)(?: ([A-Z]+))?$", use)
                if match:
                    found.append((match.group(1), match.group(2), text))
        return found


def roff(text):
    """Text for troff: hyphens that are copied as they are, and no line that begins as a request."""
    text = text.replace("\\", "\\e").replace("-", "\\-").replace("`", "")
    return "\\&" + text if text[:1] in ".'" else text


def marked(use):
    """A command with its words in bold, and its placeholders in italics."""
    parts = []
    for word in use.split(" "):
        bare = word.strip("[].")
        style = "I" if bare.isupper() and not bare.startswith("-") else "B"
        parts.append(f"\\f{style}{roff(word)}\\fR")
    return " ".join(parts)


def table(pairs):
    lines = []
    for left, right in pairs:
        lines += [".TP", marked(left), roff(right)]
    return lines


def manual(program):
    name = program.name
    lines = [f'.\\" Written by tools/manuals.py from the help of {name}.', f'.TH {name.upper()} 1 "" "{program.version}" Bitternshelf',
             ".SH NAME", f"{name} \\- {roff(program.summary.rstrip('.')[:1].lower() + program.summary.rstrip('.')[1:])}", ".SH SYNOPSIS"]
    for place, (use, _) in enumerate(program.commands):
        lines += ([".br"] if place else []) + [marked(use)]
    lines += [".SH DESCRIPTION"]
    for place, text in enumerate(program.prose):
        lines += ([".PP"] if place else []) + [roff(text)]
    if not program.prose:
        lines += [roff(f"{name} {program.summary}. It reads standard input.")]
    lines += [".SH SUBCOMMANDS"] + (table(program.commands) if not program.helps else [])
    for word, _ in program.subcommands():
        blocks = program.helps.get(word)
        if not blocks:
            continue
        lines += [".SS " + roff(blocks[0][0])]
        for block in blocks[1:]:
            lines += table(rows(block)) if is_table(block) else [".PP", roff(" ".join(line.strip() for line in block))]
    lines += [".SH EXIT STATUS"] + table(program.statuses)
    lines += [".SH SEE ALSO", SEE[name] + ", docs/" + name + ".md of Bitternshelf"]
    return "\n".join(lines) + "\n"


def bash(program):
    words = " ".join(word for word, _ in program.subcommands())
    lines = [f"# bash completion of {program.name}, written by tools/manuals.py from its help.", f"_{program.name}() {{",
             "    local word=${COMP_WORDS[COMP_CWORD]}", "    COMPREPLY=()",
             "    if [ \"$COMP_CWORD\" -eq 1 ]; then", f'        mapfile -t COMPREPLY < <(compgen -W "{words} --help --version" -- "$word")',
             "        return", "    fi"]
    cases = [(word, program.options(word)) for word, _ in program.subcommands()]
    if any(options for _, options in cases):
        lines += ["    local options=--help", "    case ${COMP_WORDS[1]} in"]
        lines += [f'        {word}) options="{" ".join(name for name, _, _ in options)} --help" ;;' for word, options in cases if options]
        lines += ["    esac"]
        lines += ["    if [[ $word == -* ]]; then", '        mapfile -t COMPREPLY < <(compgen -W "$options" -- "$word")', "        return", "    fi"]
        lines += ['    mapfile -t COMPREPLY < <(compgen -f -- "$word")']
    lines += ["}", f"complete -o filenames -F _{program.name} {program.name}"]
    return "\n".join(lines) + "\n"


def quoted(text):
    return text.replace("'", "'\\''").replace("`", "")


def zsh(program):
    name = program.name
    lines = [f"#compdef {name}", f"# Written by tools/manuals.py from the help of {name}.", "local -a subcommands", "subcommands=("]
    lines += [f"    '{word}:{quoted(text)}'" for word, text in program.subcommands()]
    lines += ["    '--help:writes the help'", "    '--version:writes the name and the version'", ")", "if (( CURRENT == 2 )); then",
              "    _describe subcommand subcommands", "    return", "fi"]
    if program.helps:
        lines += ["case $words[2] in"]
        for word, _ in program.subcommands():
            specs = [f"'{option}[{quoted(text).replace('[', '(').replace(']', ')')}]{':file:_files' if value else ''}'"
                     for option, value, text in program.options(word)]
            lines += [f"    {word}) _arguments '1:subcommand' {' '.join(specs + ['--help'])} '*:file:_files' ;;"]
        lines += ["esac"]
    return "\n".join(lines) + "\n"


def fish(program):
    name = program.name
    lines = [f"# fish completion of {name}, written by tools/manuals.py from its help."]
    for word, text in program.subcommands():
        lines += [f"complete -c {name} -n __fish_use_subcommand -f -a {word} -d '{quoted(text)}'"]
    lines += [f"complete -c {name} -n __fish_use_subcommand -f -l help -d 'writes the help'",
              f"complete -c {name} -n __fish_use_subcommand -f -l version -d 'writes the name and the version'"]
    for word, _ in program.subcommands():
        for option, value, text in program.options(word):
            lines += [f"complete -c {name} -n '__fish_seen_subcommand_from {word}' -l {option[2:]}{' -r' if value else ''} -d '{quoted(text)}'"]
    return "\n".join(lines) + "\n"


def main():
    programs = [Program("shelf", "shelf_core", more="shelf_register"),
                Program("certify", "certify_core", "issues certificates with stand-in keys, as input for tests")]
    files = {}
    for program in programs:
        files[f"man/{program.name}.1"] = manual(program)
        files[f"completions/{program.name}.bash"] = bash(program)
        files[f"completions/_{program.name}"] = zsh(program)
        files[f"completions/{program.name}.fish"] = fish(program)
    for name, text in files.items():
        path = TOP / name
        if sys.argv[1:] == ["--check"]:
            if not path.exists() or path.read_text() != text:
                sys.exit(f"manuals: {name} isn't what the help says: tools/manuals.py writes it anew")
        else:
            path.parent.mkdir(exist_ok=True)
            path.write_text(text)


if __name__ == "__main__":
    main()
