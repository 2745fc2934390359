"""What the auditor says of the journals of a cluster's nodes."""
import subprocess


def audited(node, publishers):
    """Has the auditor check the journal of a node, and says what came of it. What is wrong comes back, a line each."""
    text = node.journal()
    if text is None:
        return [f"node {node.me} wrote no journal"]
    return audited_text(node, text, publishers)


def audited_files(node, publishers):
    """The same of the journals that its lives wrote to files, of which only the last may be missing."""
    texts = node.journals()
    found = [line for text in texts for line in audited_text(node, text, publishers)]
    if len(texts) + 1 < node.lives or not texts:
        found.append(f"node {node.me} wrote {len(texts)} journals in {node.lives} lives")
    return found


def audited_text(node, text, publishers):
    """The same of the text of a journal."""
    ended = subprocess.run([node.program, "audit"], input=text, capture_output=True)
    answer = ended.stdout.decode("latin-1").strip()
    if ended.returncode != 0 or not answer.startswith("yes "):
        why = answer or ended.stderr.decode("latin-1").strip()
        return [f"node {node.me}: the auditor of its journal ended with status {ended.returncode} {why}"]
    changes = changes_in(text)
    at = f"; it changed its list at {', '.join(changes)} ms" if changes else ""
    print(f"node {node.me}: the auditor says {answer}{at}")
    if publishers and node.lives == 1 and [int(it) // 1000 >= publishers.change for it in changes] != [True]:
        return [f"node {node.me} didn't change its list once, from second {publishers.change} on"]
    return []


def changes_in(text):
    """The moments at which other lists came into force, of the entries of a journal."""
    return [line.split()[1].decode() for line in text.splitlines() if line.startswith(b"relist ")]
