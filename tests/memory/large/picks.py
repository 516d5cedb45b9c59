"""The export of npm_calls for C, called on the rows that are written for `npm_pick::pick`."""
import json

from large import named

NAME = "npm_c::npm_call"
# The names of options in the rows, and those of a call.
NAMES = {"avoidStrict": "avoid_strict", "includeStaged": "include_staged"}


class Picks(named.Named):
    def result(self, name, words):
        """The key that is picked, or the outcome; or None if the row is of another call."""
        if name != "npm_pick::pick":
            return None
        document, options, wanted = words
        given = {NAMES.get(key, key): value for key, value in json.loads(options or "{}").items()}
        answer = self.call("pick", {"packument": json.loads(document), "wanted": wanted, **given})
        return answer.get("version", answer.get("outcome", answer.get("name")))
