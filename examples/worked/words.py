"""Merges by words: what the program writes into a directory where the files of a bundle lie in directories.

With words each inventory is read twice, in pieces, so these merges go through other code than a bundle does. What is written
and told is to be the same."""
import os
import pathlib
import re
import subprocess
import tempfile
import threading


def sections(lines, word):
    """The parts of some lines that begin with a line of the word, each with what stands behind the word, and what is before
    them."""
    before, parts = [], []
    for line in lines:
        if line.startswith(word + " "):
            parts.append((line[len(word) + 1 :], []))
        else:
            (parts[-1][1] if parts else before).append(line)
    return before, parts


def texts_of(lines):
    """The files of a place of a bundle, or of an answer, by name."""
    _, files = sections(lines, "file")
    return {name: "".join(line[1:] + "\n" for line in text) for name, text in files}


def bytes_of(text):
    return text.encode("latin-1")


class Bundle:
    """The texts of a bundle before its hosts, a pins text and a keep text among them, if it has them, and its hosts with their
    files."""

    def __init__(self, text):
        head, hosts = sections(text.split("\n")[1:-1], "host")
        self.texts = texts_of(head)
        self.hosts = [(name, texts_of(lines)) for name, lines in hosts]

    def is_for_words(self):
        """Whether words can name its hosts."""
        return bool(self.hosts) and all(name.isascii() and "=" not in name and name[:1] != "-" for name, _ in self.hosts)

    def lay_out(self, room):
        """Writes the files into a directory for each host, and hands out the words that name them in the room."""
        words = []
        for name in ("pins", "keep"):
            if name in self.texts:
                (room / name).write_bytes(bytes_of(self.texts[name]))
                words += [f"--{name}", name]
        words.append("out")
        (room / "out").mkdir()
        for index, (name, texts) in enumerate(self.hosts):
            folder = room / f"host{index}"
            folder.mkdir()
            for file in ("passwd", "group", "login.defs", "mtree"):
                (folder / file).write_bytes(bytes_of(texts.get(file, "")))
            words.append(f"{name}=host{index}")
        return words


def written(folder):
    return {path.name: path.read_bytes().decode("latin-1") for path in folder.iterdir()}


def told(program, room, words):
    """The status, standard output and standard error of the program with these words."""
    ran = subprocess.run([program, *words], cwd=room, stdout=subprocess.PIPE, stderr=subprocess.PIPE, timeout=120)
    return ran.returncode, ran.stdout.decode("latin-1"), ran.stderr.decode("latin-1")


def merged(program, room, words):
    return *told(program, room, ["merge", "-q", *words]), written(room / "out")


def merged_by_words(program, bundle):
    """The status of the merge by words, what it tells on standard output and on standard error, and the files that it
    writes."""
    with tempfile.TemporaryDirectory() as name:
        room = pathlib.Path(name)
        return merged(program, room, bundle.lay_out(room))


def merged_and_looked_at(program, bundle):
    """What merged_by_words hands out; and what is told by words of the files that were written: by a check of the certificate, a
    count of the map and a rehearsal of each plan."""
    with tempfile.TemporaryDirectory() as name:
        room = pathlib.Path(name)
        words = bundle.lay_out(room)
        hosts = words[words.index("out") + 1 :]
        rules = words[: -len(hosts) - 1]
        keep = [word for word in ("--keep", "keep") if word in rules]
        merge = merged(program, room, words)
        looks = [["check", "-q", *rules, "out/certificate", *hosts], ["count", "-q", *keep, "out/map", *hosts]]
        for host, _, folder in (word.partition("=") for word in hosts):
            looks.append(["rehearse", f"out/plan.{host}", f"{folder}/mtree"])
        return merge, [told(program, room, look) for look in looks]


def looks_of(files):
    """What is to be told of the files of a merge then: its sum by the check, its fields by the count, and its records by each
    rehearsal, none of whose paths has a newline."""
    changed = re.findall(r"^(user|group)-fields (\d+) of", files["report"], re.M)
    fields = "".join(f"{kind}-fields {number}\n" for kind, number in changed)
    plans = [text for name, text in files.items() if name.startswith("plan.")]
    records = [text.count("\n") - 2 for text in plans]
    told_of = [f"accepted {sum(int(number) for _, number in changed)}\n", fields]
    return [(0, text, "") for text in told_of + [f"records {number}\ndone\n" for number in records]]


def accounts_in(text):
    """The lines of a passwd or a group, each with its fields, where it is that of an account."""
    for line in text.split("\n"):
        yield line, None if not line.strip(" \t") or line.startswith("#") else line.split(":")


def own_files(texts, users, groups):
    """A host's own passwd and group with the numbers of a map, given by name; a name that the map has not keeps its number."""
    named = {int(fields[2]): fields[0] for _, fields in reversed([*accounts_in(texts.get("group", ""))]) if fields}
    passwd, group = [], []
    for line, fields in accounts_in(texts.get("passwd", "")):
        if fields:
            name, _, uid, gid = fields[:4]
            fields[2:4] = users.get(name, uid), groups.get(named[int(gid)], gid)
        passwd.append(":".join(fields) if fields else line)
    for line, fields in accounts_in(texts.get("group", "")):
        if fields:
            fields[2] = groups.get(fields[0], fields[2])
        group.append(":".join(fields) if fields else line)
    return "\n".join(passwd), "\n".join(group)


def with_hosts(text):
    """The bundle of a merge that has each host's own files answered as well."""
    return text.replace("run merge\n", "run merge hosts\n", 1)


def own_lines(answer, bundle):
    """What `run merge hosts` answers behind an answer to `run merge`: each host's own files, made here by the map that was
    answered."""
    numbers = dict(line.rsplit(" ", 1) for line in texts_of(answer.split("\n")[:-1])["map"].split("\n")[:-1])
    users, groups = ({key.partition(" ")[2]: number for key, number in numbers.items() if key.startswith(kind)} for kind in ("user ", "group "))
    lines = []
    for name, texts in bundle.hosts:
        for file, text in zip(("passwd", "group"), own_files(texts, users, groups)):
            lines += [f"file {file}.{name}", *("|" + line for line in text.split("\n")[:-1])]
    return "".join(line + "\n" for line in lines)


def merged_by_bundle(status, answer):
    """The same, of the answer to the bundle with the hosts' own files: what is told stands in the report, and a refusal goes to
    standard error."""
    if status != 0:
        return status, "", answer, {}
    files = texts_of(answer.split("\n")[:-1])
    changed = re.findall(r"^(user|group)-fields (\d+) of", files["report"], re.M)
    return status, "".join(f"{kind}-fields {number}\n" for kind, number in changed), "", files


def change(path, text):
    """Gives a file another text; or takes the file away, where there is none."""
    if text is None:
        path.unlink()
    else:
        path.write_bytes(bytes_of(text))


def merged_while_changing(program, bundle, host, again, older=None):
    """The same, where the inventory of a host is another text, or gone, when it is read for the second time, and where older
    files are in the directory that is written into. The inventory of the last host, a later one, is a pipe: the program opens
    it when it has read the others once."""
    with tempfile.TemporaryDirectory() as name:
        room = pathlib.Path(name)
        words = bundle.lay_out(room)
        for file, text in (older or {}).items():
            (room / "out" / file).write_bytes(bytes_of(text))
        changing, last = room / f"host{host}/mtree", room / f"host{len(bundle.hosts) - 1}/mtree"
        text, after = last.read_bytes(), room / "after"
        last.rename(after)
        os.mkfifo(last)

        def hand_out():
            with open(last, "wb") as pipe:
                change(changing, again)
                after.replace(last)
                pipe.write(text)

        threading.Thread(target=hand_out, daemon=True).start()
        return merged(program, room, words)
