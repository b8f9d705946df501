"""The forms of the jobs of docs/CI.md, as the references of GitLab, GitHub and Jenkins have them, as far as the page uses them: what a key
is called, which value it may have, and that each name in an expression is one that stands. `faults` yields what is not so."""
import re

ANY = "*"                   # any name
NAME, LINE = r"[A-Za-z_][\w-]*", r"[^\n]+"
WHEN = {"on_success", "on_failure", "always"}
# a form is a pattern, a set of values, a type, a list of one form, or the keys with their forms; a key with ! must be there
GITLAB = {"bisect!": {
    "image": r"[\w./-]+(:\d+/[\w./-]+)?(:[\w.-]+)?", "rules": [{"if!": LINE}], "timeout": r"\d+[smhdw]( \d+[smhdw])*", "variables": {ANY: str},
    "cache": {"key!": r"[^/\n]+", "when": WHEN, "paths!": [r"[^/$*\n][^$\n]*"]}, "script!": [str], "retry": {"max!": {0, 1, 2}, "exit_codes": [range(1, 256)]},
    "allow_failure": {"exit_codes!": [range(1, 256)]},
    "artifacts": {"when": WHEN, "expose_as": r"[\w -]{1,100}", "paths!": [r"[^/$*\n][^$*\n]*"], "reports": {"junit!": LINE}}}}
WITH = {"actions/checkout@v4": {"fetch-depth": range(1000)}, "actions/cache/restore@v4": {"path!": LINE, "key!": LINE, "restore-keys": str},
        "actions/cache/save@v4": {"path!": LINE, "key!": LINE}, "actions/upload-artifact@v4": {"name": r'[^":<>|*?\r\n\\/]+', "path!": LINE}}
STEP = {"name": LINE, "id": NAME, "if": LINE, "env": {ANY: str}}
USES, RUNS = {**STEP, "uses!": set(WITH), "with": {ANY: (str, int)}}, {**STEP, "run!": str}
GITHUB = {
    "name": LINE, "on!": {"workflow_dispatch!": {"inputs": {ANY: {"description": LINE, "default": str, "required": bool}}}},
    "permissions": {"contents": {"read", "write", "none"}, "actions": {"read", "write", "none"}},
    "jobs!": {"bisect!": {"runs-on!": {"ubuntu-24.04"}, "timeout-minutes": range(1, 361), "env": {ANY: str}, "steps!": [dict]}}}
OF_GITHUB = {"run_id", "run_attempt", "workspace", "token"}
# what stands in a pipeline: the parts, with those that may stand in them, and the words of each step
PARTS = {"": {"pipeline"}, "pipeline": {"agent", "parameters", "options", "environment", "stages", "post"}, "stages": {"stage"}, "stage": {"steps"},
         "steps": {"script"}, "post": {"always"}}
CALLS = {"string": {"name", "defaultValue", "description", "value"}, "timeout": {"time", "unit"}, "scmGit": {"branches", "userRemoteConfigs", "extensions"},
         "cloneOption": {"shallow", "noTags"}, "sh": {"returnStatus", "returnStdout", "script"}, "build": {"job", "wait", "parameters"},
         "archiveArtifacts": {"artifacts", "allowEmptyArchive"}, "junit": {"testResults", "allowEmptyResults", "skipMarkingBuildUnstable"},
         "publishHTML": {"reportDir", "reportFiles", "reportName", "keepAll", "alwaysLinkToLastBuild", "allowMissing"}}
PLAIN = {"disableConcurrentBuilds", "unstable", "error", "stage", "if", "collect", "trim"}  # without words that have names


def not_of(value, form, place):
    """What of a value is not of a form."""
    if isinstance(form, dict):
        yield from not_of_keys(value, form, place)
    elif isinstance(form, list):
        if not isinstance(value, list) or not value:
            yield f"{place}: a list"
        else:
            for at, one in enumerate(value):
                yield from not_of(one, form[0], f"{place}[{at}]")
    elif isinstance(form, str):
        if not isinstance(value, str) or not re.fullmatch(form, value):
            yield f"{place}: {value!r}"
    elif isinstance(form, (type, tuple)):
        if not isinstance(value, form) or isinstance(value, bool) and form is not bool:
            yield f"{place}: {value!r} is of another type"
    elif isinstance(value, (list, dict, bool)) or value not in form:
        yield f"{place}: {value!r}"


def not_of_keys(value, form, place):
    """The same of keys."""
    if not isinstance(value, dict):
        yield f"{place}: keys"
        return
    forms = {key.rstrip("!"): below for key, below in form.items()}
    yield from (f"{place}: {key[:-1]} is missing" for key in form if key.endswith("!") and key[:-1] not in value)
    for key, below in value.items():
        if key in forms:
            yield from not_of(below, forms[key], f"{place}.{key}")
        elif ANY in forms and re.fullmatch(NAME, str(key)):
            yield from not_of(below, forms[ANY], f"{place}.{key}")
        else:
            yield f"{place}: no key {key}"


def of_gitlab(job):
    """What is wrong with a job of GitLab."""
    yield from not_of(job, GITLAB, "gitlab")


def of_github(workflow):
    """What is wrong with a workflow of GitHub."""
    wrong = list(not_of(workflow, GITHUB, "github"))
    yield from wrong
    if wrong:
        return
    inputs, job, outputs = workflow["on"]["workflow_dispatch"]["inputs"], workflow["jobs"]["bisect"], set()
    yield from unknown_names(str(job["env"]), {"inputs": set(inputs), "github": OF_GITHUB})
    for at, step in enumerate(job["steps"]):
        yield from not_of(step, USES if "uses" in step else RUNS, f"steps[{at}]")
        yield from not_of(step.get("with", {}), WITH.get(step.get("uses"), {}), f"steps[{at}].with")
        known = {"inputs": set(inputs), "github": OF_GITHUB, "vars": re.compile("[A-Z_]+"), "steps": outputs}
        if "${{" in step.get("run", ""):
            yield f"steps[{at}]: an expression within a script: its words would be run"
        yield from unknown_names(str({key: value for key, value in step.items() if key != "if"}), known)
        if "if" in step:
            yield from unknown_names("${{ %s }}" % step["if"], known)
        outputs |= {f"{step.get('id')}.outputs.{name}" for name in re.findall(r'echo "(\w+)=[^\n]*>>"\$GITHUB_OUTPUT"', step.get("run", ""))}
        yield from wrong_start(step.get("run", ""), inputs, workflow.get("permissions", {}))


def unknown_names(text, known):
    """The names in expressions that nothing has."""
    for expression in re.findall(r"\$\{\{(.*?)\}\}", text):
        words = re.sub(r"'[^']*'", "", expression)
        for name in re.findall(r"[A-Za-z_][\w.-]*\(?", words):
            context, _, rest = name.partition(".")
            of = known.get(context, ())
            if name != "always(" and not (of.fullmatch(rest) if isinstance(of, re.Pattern) else rest in of):
                yield f"{name} in {expression.strip()}"


def wrong_start(script, inputs, permissions):
    """A line that starts the workflow again gives each input that has no other value, and may do so."""
    if "gh workflow run" in script:
        given = set(re.findall(r"-f (\w+)=", script))
        yield from (f"no input {name}" for name in given - set(inputs))
        yield from (f"the input {name} is not given" for name, one in inputs.items() if one.get("required") and name not in given)
        if permissions.get("actions") != "write":
            yield "to start a workflow is not permitted"


def of_jenkins(text):
    """What is wrong with a pipeline of Jenkins."""
    text = re.sub(r"'''.*?'''|'[^'\n]*'|\"[^\"\n]*\"", "''", text, flags=re.S)
    within = []
    for sign in re.finditer(r"(?:(\w+)(?:\([^(){}]*\))? )?\{|[()\[\]}]", text):
        if sign.group() in "([":
            within.append(sign.group())
        elif sign.group() in ")]}":
            if not within or (within[-1] if within[-1] in "([" else "{") + sign.group() not in ("()", "[]", "{}"):
                yield f"{sign.group()} closes nothing"
                return
            within.pop()
        else:
            above = next((part for part in reversed(within) if part not in "(["), "")
            if above in PARTS and sign.group(1) not in PARTS[above]:
                yield f"{sign.group(1)} in {above or 'the file'}"
            within.append(sign.group(1) or "a block")
    if within:
        yield f"{within[-1]} is not closed"
    for call in re.finditer(r"(\w+)\(", text):
        words = set(re.findall(r"(\w+):", own_words(text[call.end():])))
        if call.group(1) not in PLAIN and not words <= CALLS.get(call.group(1), set()) or call.group(1) not in PLAIN | set(CALLS):
            yield f"{call.group(1)}({', '.join(sorted(words))})"


def own_words(text):
    """What stands between the brackets of a call, without that of the calls in it."""
    depth, out = 0, ""
    for sign in text:
        depth += (sign in "({") - (sign in ")}")
        if depth < 0:
            break
        out += sign if depth == 0 else ""
    return out
