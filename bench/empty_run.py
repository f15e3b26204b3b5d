"""Writes the three files of a run that lists no path. `pdfgen check` on them reads netlist and delays, lists the first paths, and then ends with
status 1, since the run lists too few: so it is measured what reading and listing take. For the scripts beside it."""
import re

HEADER = "path,direction,length,source,steps,verdict,test,robust_proof,nonrobust_proof\n"
PROOFS = "pdfgen proofs 2\n"
# What `check` says of such a run of a circuit that has a path.
SAID = "check: count 1 WrongCount"
FORM = re.compile(r"\s*(INPUT|OUTPUT)\s*\(\s*([^\s()]+)\s*\)|\s*([^\s=]+)\s*=\s*(\w+)\s*\(([^)]*)\)", re.IGNORECASE)


def heading(net):
    """The heading of a tests file of the netlist: its version, its sources and its observed lines."""
    inputs, outputs, flops, data = [], [], [], []
    for line in net.read_text(errors="replace").splitlines():
        form = FORM.match(line.partition("#")[0])
        if not form:
            continue
        if form[1]:
            (inputs if form[1].upper() == "INPUT" else outputs).append(form[2])
        elif form[4].upper() == "DFF":
            flops.append(form[3])
            data.append(form[5].strip())
    observed = list(dict.fromkeys(outputs + data))
    return "".join(" ".join(words) + "\n" for words in (["pdfgen tests 1"], ["sources", *inputs, *flops], ["observed", *observed]))


def write(net, folder):
    """The three files of such a run, in this folder: tests, report, proofs."""
    files = [folder / f"{net.stem}.empty.{kind}" for kind in ("tests", "report", "proofs")]
    for file, text in zip(files, (heading(net), HEADER, PROOFS)):
        file.write_text(text)
    return files


def words(program, net, delays, files, paths):
    """The words of a call that lists so many paths and finds none of them in the files."""
    return [str(program), "check", str(net), str(delays), *map(str, files), "--paths", str(paths), "--budget", "1"]


def is_as_said(run):
    """Whether such a call ended as it is to."""
    return run.status == 1 and run.err.strip() == SAID
