"""Certificates, plans and inventories that end too early, or have a line out of its place: where the fault is told.

A text that ends within a line stands in no bundle, so these texts are files, which words name."""
import pathlib
import tempfile

from command_line import ran
from words import Bundle

FOLDER = pathlib.Path(__file__).resolve().parent


def bad_certificate(line):
    return 1, "", f"unify: 28 BadCertificate line {line}\n"


# What stands behind the first line of a certificate for a host without accounts, and what is told of it.
LINES = [
    ("end\n", (0, "accepted 0\n", "")),
    ("user a b 0 18446744073709551615\nend\n", (4, "", "unify: 29 NameMissing user a\\040b\n")),
    ("end\nend\n", bad_certificate(3)),
    ("user b 1 0\nuser a 2 0\nend\n", bad_certificate(3)),
    ("user a 01 0\nend\n", bad_certificate(2)),
    ("user a 4294967295 0\nend\n", bad_certificate(2)),
    ("user a 1 18446744073709551616\nend\n", bad_certificate(2)),
    ("user a:b 1 0\nend\n", bad_certificate(2)),
    ("zuser 1 0\nend\n", bad_certificate(2)),
    ("zuser 2 1\nzuser 2 1\nend\n", bad_certificate(3)),
    ("group a 1 0\nuser a 1 0\nend\n", bad_certificate(3)),
]


def bundle_of(name):
    return Bundle((FOLDER / f"{name}.bundle").read_text())


def checked(program, room, hosts, certificate):
    """What the check of a certificate for hosts that lie in a room tells."""
    (room / "certificate").write_text(certificate)
    return ran(program, ["check", "-q", "certificate", *hosts], room)


def cut_certificates(program, room):
    """Each prefix of the swap's certificate: its fault is in the line that is cut, or that is missing."""
    bundle = bundle_of("check/swap-checked")
    _, *hosts = bundle.lay_out(room)
    certificate = bundle.texts["certificate"]
    for length in range(len(certificate)):
        prefix = certificate[:length]
        name = f"every-certificate-prefix, {length} bytes"
        yield name, bad_certificate(prefix.count("\n") + 1), checked(program, room, hosts, prefix)
    yield "swap-checked, by words", (0, "accepted 6\n", ""), checked(program, room, hosts, certificate)


def certificates_out_of_place(program, room):
    _, *hosts = Bundle("run check\nhost a\n").lay_out(room)
    for text, wanted in LINES:
        yield f"lines-out-of-place, {text!r}", wanted, checked(program, room, hosts, "unify certificate 2\n" + text)


def cut_plans(program, room):
    """Each prefix of the swap's plan of a: its fault is where the line that is cut begins, or where the text ends."""
    texts = bundle_of("rehearse/swap-rehearsed").texts
    (room / "mtree").write_text(texts["mtree"])
    for length in range(len(texts["plan"]) + 1):
        prefix = texts["plan"][:length]
        (room / "plan").write_text(prefix)
        told = 1, "", "unify: 35 BadPlan byte {}\n".format(prefix.rfind("\n") + 1)
        wanted = (0, "records 6\ndone\n", "") if prefix == texts["plan"] else told
        yield f"every-plan-prefix, {length} bytes", wanted, ran(program, ["rehearse", "plan", "mtree"], room)


def cut_inventories(program, room):
    """The inventory of the swap's a as `unify inventory` writes it, cut behind each of its lines and within the last one."""
    texts = bundle_of("rehearse/swap-rehearsed").texts
    (room / "plan").write_text(texts["plan"])
    files = texts["mtree"].splitlines(True)
    lines = ["# unify inventory 1 a 2026-01-02T03:04:05Z /\n", *files, f"# end {len(files)}\n"]
    fronts = ["".join(lines[:count]) for count in range(1, len(lines))]
    for front in [*fronts, fronts[-1] + "# end", fronts[-1] + "# end ", *(fronts[-1] + f"# end {it}\n" for it in ("", 5, 60, 606))]:
        (room / "mtree").write_text(front)
        told = 1, "", "unify: 45 CutInventory host a mtree line {}\n".format(front.count("\n") + 1)
        yield f"cut-inventory, {len(front)} bytes", told, ran(program, ["rehearse", "plan", "mtree"], room)
    for whole in ("".join(lines), "".join(lines)[:-1]):
        (room / "mtree").write_text(whole)
        yield f"cut-inventory, {len(whole)} bytes", (0, "records 6\ndone\n", ""), ran(program, ["rehearse", "plan", "mtree"], room)


def cut_texts(program):
    """For each text: a name, what is wanted, and what came."""
    for texts in (cut_certificates, certificates_out_of_place, cut_plans, cut_inventories):
        with tempfile.TemporaryDirectory() as name:
            yield from texts(program, pathlib.Path(name))
