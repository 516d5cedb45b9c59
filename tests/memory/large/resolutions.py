"""The export of npm_calls for C, called with the files that runs of npm_resolve_command read."""
import json

from large import named, runs

NAME = "npm_resolve::resolve"  # (of these rows alone)
MIRROR, JSON = "mirror/", ".json"
MARKS = {"--flat": "flat", "--lowest": "lowest", "lock": "lockfile"}


def rows():
    """A manifest, the documents and the options of a run in which versions are selected, not a tree, and their lines or the lock file."""
    for run in runs.resolve_runs():
        is_tree = not {"--peers", "--flat"} & {*run.words}
        if run.words.count("--manifest") == 1 and "json" not in run.words and run.status == 0 and run.output and not is_tree:
            documents = {name[len(MIRROR):-len(JSON)]: value for name, value in run.files.items() if name.startswith(MIRROR)}
            options = {name: True for word, name in MARKS.items() if word in run.words}
            if "--lock" in run.words:
                options["lock"] = runs.text_of(run.files["lock.json"])
            yield NAME, [json.dumps(run.files["package.json"]), json.dumps(documents), json.dumps(options)], run.output


class Resolutions(named.Named):
    def result(self, name, words):
        """The versions that are selected, each in a line, the lock file, or the outcome."""
        manifest, documents, options = words
        asked = json.loads(options)
        answer = self.call("resolve", {"manifest": json.loads(manifest), "packuments": json.loads(documents), **asked})
        if "lockfile" in answer:
            return answer["lockfile"]
        return "".join(sorted(f"{one['name']}@{one['version']}\n" for one in answer.get("packages", [])))
