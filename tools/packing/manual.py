"""Manual pages, made of the words and help of commands."""
import re


def page(command, name, version, others, files=""):
    """Returns the manual page of a command by its installed name."""
    title = [f'.TH {name.upper()} 1 "" "{version}" "User Commands"', ".SH NAME", f"{plain(name)} \\- {plain(small(command.about)).rstrip('.')}"]
    synopsis = [".SH SYNOPSIS", "\n.br\n".join(plain(it) for it in command.usages)]
    more, _, status = command.more.partition("Status:\n")
    described = [".SH DESCRIPTION", paragraph(command.about), *blocks(more)]
    # (each has --help)
    commands = [line for it in command.commands for line in
                (f".SS {plain(it.name)}", paragraph(it.about), *words(it.arguments, [word for word in it.options if "--help" not in word.flags]))]
    ends = [line for it in re.finditer(r"^  (\d)  (.*(?:\n {5}.*)*)", status, re.M) for line in (".TP", f".B {it[1]}", paragraph(it[2]))]
    parts = [title, synopsis, described, [".SH COMMANDS", *commands] if commands else [], [".SH OPTIONS", *words(command.arguments, command.options)],
             [".SH EXIT STATUS", *ends] if ends else [], [".SH FILES", *blocks(files)] if files else [],
             [".SH SEE ALSO", ",\n".join(f".BR {plain(it)} (1)" for it in others).replace(",\n.BR", " ,\n.BR")]]
    return "".join(f"{line}\n" for part in parts for line in part)


def small(text):
    return text[0].lower() + text[1:]


def plain(text):
    """Returns text that is printed as it stands."""
    return re.sub(r"(?m)^(?=[.'])", r"\\&", text.replace("\\", "\\e").replace("-", "\\-"))


def paragraph(text):
    """Returns a paragraph whose lines are filled."""
    return plain(" ".join(text.split()))


def words(arguments, options):
    """Returns a paragraph for each argument and option."""
    found = []
    for it in (*arguments, *options):
        flags = ", ".join(f"\\fB{plain(flag)}\\fR" for flag in it.flags)
        value = f"\\fI{plain(it.value)}\\fR" if it.value else ""
        offers = f" One of {', '.join(it.offers)}." if it.offers else ""
        found += [".TP", " ".join(filter(None, (flags, value))), paragraph(f"{it.about.rstrip('.')}.{offers}")]
    return found


def blocks(text):
    """Returns paragraphs, points behind `- `, and lines that are shown as they stand, which begin with two spaces."""
    found, kept = [], []

    def end():
        if kept and kept[0].startswith("  "):
            found.extend([".PP", ".RS 2", ".nf", *(plain(it[2:]) for it in kept), ".fi", ".RE"])
        elif kept and kept[0].startswith("- "):
            found.extend([".IP \\(bu 2", paragraph("\n".join(kept)[2:])])
        elif kept:
            found.extend([".PP", paragraph("\n".join(kept))])
        kept.clear()

    for line in text.strip("\n").split("\n"):
        is_shown, is_point = line.startswith("  "), line.startswith("- ")
        goes_on = kept and line and not is_point and (is_shown if kept[0].startswith("  ") else not is_shown or kept[0].startswith("- "))
        if not goes_on:
            end()
        if line:
            kept.append(line)
    end()
    return found
