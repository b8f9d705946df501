#!/usr/bin/env python3
"""Runs the jobs of docs/CI.md with stand-ins for GitLab, GitHub and Jenkins, which clone as these do, keep caches and artifacts as the job
says, and start the next job. ci.py gitlab|github|jenkins|forms; run in an empty folder, it prints what is not so and ends with 1.

`forms` looks at the texts themselves: yamllint where it is there, shellcheck for each script, and the forms that the servers know (ci_forms.py)."""
import os
import re
import shutil
import subprocess
import sys

import ci_forms

TOP = os.path.dirname(os.path.dirname(os.path.abspath(__file__)))
PAGE = os.path.join(TOP, "docs", "CI.md")
COMMITS, FIRST_BAD = 40, 23
# what the forms must refuse: a text of the page, and one that is wrong in its place
WRONG = {"gitlab": [("max: 2", "max: 3"), ("when: always", "when: allways"), ("  script:", "  scripts:"), ("exit_codes: [24]", "exit_codes: [999]"),
                    ("timeout: 1h", "timeout: an hour"), ("rules:", "rule:"), ('GIT_DEPTH: "0"', "GIT_DEPTH: 0"), ("junit: ", "junits: "),
                    ("- report/", "- $REPORT/")],
         "github": [("inputs.bad }}", "inputs.bed }}"), ("id: search", "id: find"), ('echo "status=', 'echo "state='), ("fetch-depth: 0", "fetch-depht: 0"),
                    ("timeout-minutes: 350", "timeout-minutes: 400"), ("required: true", "required: yes, it is"), ("actions: write", "actions: read"),
                    ('-f good="$GOOD"', ""), ("restore-keys:", "restore-key:"), ("if: always()", "if: allways()"),
                    ('"$BAD" "$GOOD" --', '"${{ inputs.bad }}" "$GOOD" --'), ("vars.FARMDAWN_SUM", "variables.FARMDAWN_SUM"), ("    steps:", "    step:"),
                    ("uses: actions/checkout@v4", "uses: actions/checkout@v400")],
         "jenkins": [("stages {", "stage {"), ("returnStatus:", "returnsStatus:"), ("unstable(", "unsteady("), ("post {", "afterwards {"), ("    }\n  }\n}", "    }\n  }"),
                     ("[cloneOption(shallow: false, noTags: false)]", "[cloneOption(shallow: false, noTags: false)"), ("noTags:", "tags:")]}

def expect(what, holds):
    if not holds:
        sys.exit(f"not so: {what}")


def blocks(kind):
    with open(PAGE, encoding="utf-8") as file:
        return re.findall(rf"^```{kind}\n(.*?)^```", file.read(), re.M | re.S)


def yaml_of(text):
    import yaml
    loaded = yaml.safe_load(text)
    return {("on" if key is True else key): value for key, value in loaded.items()}


def git(*words, cwd=None):
    return subprocess.run(["git", *words], cwd=cwd, check=True, stdout=subprocess.PIPE, text=True).stdout.strip()


def make_origin():
    """A repository with a line of commits, of which the 23rd breaks the test; its own tags name them."""
    parts = [f"commit refs/heads/main\ncommitter g <g@example.org> {1700000000 + at} +0000\ndata <<.\nchange {at}\n.\nM 100644 inline number\n"
             f"data <<.\n{at}\n.\nreset refs/tags/c{at}\nfrom refs/heads/main\n" for at in range(1, COMMITS + 1)]
    git("init", "-q", "--bare", "-b", "main", "origin")
    subprocess.run(["git", "fast-import", "--quiet"], cwd="origin", input="".join(parts), text=True, check=True)
    return git("rev-parse", f"c{FIRST_BAD}", cwd="origin")


def clone(number, depth):
    """A clone as a server makes it: of so many commits, all of them where it is 0."""
    folder = os.path.abspath(f"builds/{number}/project")
    words = ["--depth", str(depth)] if depth else []
    git("clone", "-q", *words, "file://" + os.path.abspath("origin"), folder)
    if depth:
        git("fetch", "-q", "--depth", str(depth), "origin", "tag", "c1", cwd=folder)
    return folder


def keep(folder, paths, store):
    """Takes folders out of a workspace into a store."""
    shutil.rmtree(store, ignore_errors=True)
    for path in paths:
        if os.path.exists(os.path.join(folder, path)):
            shutil.copytree(os.path.join(folder, path), os.path.join(store, path), symlinks=True)


def put_back(store, folder):
    if os.path.exists(store):
        shutil.copytree(store, folder, symlinks=True, dirs_exist_ok=True)


def run(script, folder, env, shell=("bash", "-eo", "pipefail", "-c")):
    """The status and what was printed."""
    done = subprocess.run([*shell, script], cwd=folder, env={**os.environ, **{name: str(value) for name, value in env.items()}}, stdin=subprocess.DEVNULL,
                          stdout=subprocess.PIPE, stderr=subprocess.STDOUT, text=True)
    return done.returncode, done.stdout


def result_of(folder):
    import json
    with open(os.path.join(folder, "report", "result.json"), encoding="utf-8") as file:
        return json.load(file)


# a test that hangs in the first job once two commits were tested, so that the deadline ends that job; each notes what it has tested
HANGS = "[ -e ../../../second ] || [ $(wc -l <../../../tested) -lt 2 ] || sleep 600; echo $FARMDAWN_COMMIT >>../../../tested; test $(cat number) -lt 23"
SEARCHES = [("n=$(cat number); [ $n -ge 19 ] || exit 0; [ $n -ge 23 ] || exit 125; exit 1", 2), ("true", 1), ("./nothing", 6)]


def go_on(job):
    """A search that the deadline stops, and that the next job goes on with; job(NUMBER, TEST, DEADLINE) gives status and workspace."""
    first_bad = make_origin()
    open("tested", "w").close()
    status, folder, out = job(1, HANGS, "30s")
    expect(f"the time is over: {status} {out}", status == 24)
    open("second", "w").close()
    with open("tested", encoding="ascii") as file:
        before = file.read().split()
    status, folder, out = job(2, HANGS, "10m")
    expect(f"the next job finds it: {status} {out}", status == 0)
    found = result_of(folder)
    expect("it is the right one", found["answer"]["name"] == first_bad)
    looked_at = {first_bad, *(one["commit"] for one in found["last_good"])}  # these are tested alone, too
    with open("tested", encoding="ascii") as file:
        after = file.read().split()
    often = {commit: after.count(commit) for commit in after}
    expect(f"it went on from {before}: {after}", before and all(n <= 1 + (commit in looked_at) for commit, n in often.items()))


def bring_nothing(job):
    """Jobs whose time is over before any test has ended: the first is started again, and the second in a row fails."""
    statuses = [job(number, "sleep 600", "4s")[0] for number in (20, 21, 22)]
    expect(f"one that brings nothing is started again, and the next one fails: {statuses}", statuses == [24, 25, 24])


# -- GitLab ------------------------------------------------------------------------

def expand(text, env):
    return re.sub(r"\$(\w+)", lambda match: str(env.get(match[1], "")), str(text))


def gitlab_job(job, number, test, deadline, depth=None):
    """One job: its variables, cache, script and artifacts."""
    env = {**job["variables"], "GOOD": "c1", "TEST": test, "DEADLINE": deadline, "CI_COMMIT_REF_SLUG": "main"}
    folder = clone(number, int(env["GIT_DEPTH"]) if depth is None else depth)
    env["CI_PROJECT_DIR"] = folder
    env = {name: expand(value, env) if name != "TEST" else value for name, value in env.items()}
    expect("the rule lets it run", job["rules"] == [{"if": "$GOOD && $TEST"}])
    store = "caches/" + expand(job["cache"]["key"], env)
    put_back(store, folder)
    status, out = run("\n".join(job["script"]), folder, env)
    if job["cache"].get("when", "on_success") == "always" or status == 0:
        keep(folder, job["cache"]["paths"], store)
    kept = f"artifacts/{number}"
    if job["artifacts"].get("when", "on_success") == "always" or status == 0:
        keep(folder, job["artifacts"]["paths"], kept)
    return status, kept, out


def gitlab():
    job = yaml_of(blocks("yaml")[0])["bisect"]
    go_on(lambda *words: gitlab_job(job, *words))
    bring_nothing(lambda *words: gitlab_job(job, *words))
    expect("a job whose time is over is started again", 24 in job["retry"]["exit_codes"])
    expect("JUnit is an artifact", os.path.exists("artifacts/2/" + job["artifacts"]["reports"]["junit"]))
    for number, (test, due) in enumerate(SEARCHES, 3):
        status, kept, out = gitlab_job(job, number, test, "10m")
        expect(f"{test}: {status} {out}", status == due)
        expect(f"{test} passes with a warning, or not", (status in job["allow_failure"]["exit_codes"]) == (due == 2))
        expect(f"{test}: the report is kept", result_of(kept)["status"] == due)
    status, _, out = gitlab_job(job, 9, "true", "10m", depth=5)
    expect(f"a shallow clone is told: {status} {out}", status == 8 and "shallow" in out)
    note = blocks("sh")[0]
    make_tool("curl", 'for word; do case $word in body=*) cat "${word#body=<}" ;; *) echo "$word" ;; esac; done >>"$SENT"')
    env = {"PATH": os.path.abspath("bin") + ":" + os.environ["PATH"], "SENT": os.path.abspath("sent"), "CI_API_V4_URL": "https://gitlab/api/v4", "CI_PROJECT_ID": 7,
           "CI_MERGE_REQUEST_IID": 9, "FARMDAWN_TOKEN": "token"}
    expect("the note is sent", run(note, "artifacts/2", env)[0] == 0)
    with open("sent", encoding="utf-8") as file:
        sent = file.read()
    expect(f"to the merge request: {sent}", "https://gitlab/api/v4/projects/7/merge_requests/9/notes" in sent and "First bad commit" in sent)


def make_tool(name, script):
    """A program of the stand-in's own on the path."""
    os.makedirs("bin", exist_ok=True)
    with open("bin/" + name, "w", encoding="utf-8") as file:
        file.write("#!/bin/sh\n" + script + "\n")
    os.chmod("bin/" + name, 0o755)


# -- GitHub ------------------------------------------------------------------------

class GitHub:
    """One run of the workflow: its steps in order, with the conditions, the caches and the summary."""

    def __init__(self, workflow, number, inputs, deadline, depth=None):
        self.job, self.number, self.inputs, self.deadline, self.depth = workflow["jobs"]["bisect"], number, inputs, deadline, depth
        self.outputs, self.failed, self.out, self.folder = {}, False, "", os.path.abspath(f"builds/{number}/project")
        self.status = None
        for name in ("summary", "output"):
            open(f"{name}.{number}", "w").close()

    def value(self, text):
        """A text with its expressions."""
        def known(match):
            name = match[1].strip()
            if name.startswith("inputs."):
                return self.inputs[name[7:]]
            if name.startswith("vars."):
                return {"FARMDAWN_URL": "https://example.org/farmdawn.deb", "FARMDAWN_SUM": "0"}[name[5:]]
            return {"github.run_id": str(self.number), "github.run_attempt": "1", "github.workspace": self.folder, "github.token": "token"}[name]
        return re.sub(r"\$\{\{(.*?)\}\}", known, str(text))

    def holds(self, condition):
        """Whether a step is run: without a condition where nothing has failed."""
        if condition == "always()":
            return True
        found = re.fullmatch(r"steps\.(\w+)\.outputs\.(\w+) == '(.*)'", condition or "")
        expect(f"a condition that is known: {condition}", condition is None or found)
        return not self.failed and (condition is None or self.outputs.get(f"{found[1]}.{found[2]}") == found[3])

    def environment(self, step):
        env = {name: self.value(value) for name, value in {**self.job["env"], **step.get("env", {})}.items()}
        return {**env, "DEADLINE": self.deadline, "GITHUB_OUTPUT": os.path.abspath(f"output.{self.number}"), "GITHUB_REF_NAME": "main", "RUNNER_TEMP": os.path.abspath("."),
                "GITHUB_STEP_SUMMARY": os.path.abspath(f"summary.{self.number}"), "PATH": os.path.abspath("bin") + ":" + os.environ["PATH"], "SENT": os.path.abspath("sent")}

    def use(self, action, words):
        if action == "actions/checkout@v4":
            clone(self.number, words.get("fetch-depth", 1) if self.depth is None else self.depth)
        elif action == "actions/cache/restore@v4":
            latest = sorted(name for name in os.listdir("caches") if name.startswith(words["restore-keys"])) if os.path.exists("caches") else []
            if latest:
                put_back("caches/" + latest[-1], self.folder)
        elif action == "actions/cache/save@v4":
            expect("a cache is not written twice", not os.path.exists("caches/" + self.value(words["key"])))
            keep(self.folder, [words["path"]], "caches/" + self.value(words["key"]))
        else:
            keep(self.folder, [words["path"]], f"artifacts/{self.number}")

    def run(self):
        """All steps; gives the status of the search."""
        for step in self.job["steps"]:
            if not self.holds(step.get("if")):
                continue
            if "uses" in step:
                self.use(step["uses"], step.get("with", {}))
                continue
            status, out = run(step["run"], self.folder, self.environment(step), ("bash", "--noprofile", "--norc", "-eo", "pipefail", "-c"))
            self.out += out
            self.failed = self.failed or status != 0
            with open(f"output.{self.number}", encoding="utf-8") as file:
                self.outputs.update((f"{step.get('id')}.{name}", value) for name, _, value in (line.strip().partition("=") for line in file))
        self.status = int(self.outputs.get("search.status", -1))
        return self.status


def github():
    workflow = yaml_of(blocks("yaml")[1])
    make_tool("gh", 'printf "%s\\n" "$@" >"$SENT"')
    for name in ("curl", "sudo", "sha256sum"):
        make_tool(name, "cat >/dev/null" if name == "sha256sum" else "exit 0")
    runs = {}

    def job(number, test, deadline, depth=None):
        one = runs[number] = GitHub(workflow, number, {"bad": "HEAD", "good": "c1", "test": test}, deadline, depth)
        return one.run(), f"artifacts/{number}", one.out
    go_on(job)
    with open("sent", encoding="utf-8") as file:
        sent = file.read().split("\n")
    expect(f"the next run has the same words: {sent}", sent[:4] == ["workflow", "run", "bisect.yml", "--ref"] and "good=c1" in sent and "test=" + HANGS in sent)
    bring_nothing(job)
    expect("a run that brings nothing fails, where it is not started again", [runs[at].failed for at in (20, 21)] == [False, True])
    with open("summary.2", encoding="utf-8") as file:
        expect("the summary has the answer", "First bad commit" in file.read())
    for number, (test, due) in enumerate(SEARCHES, 3):
        status, kept, out = job(number, test, "10m")
        expect(f"{test}: {status} {out}", status == due and runs[number].failed == (due != 2))
        expect(f"{test}: the report is kept", result_of(kept)["status"] == due)
    expect("a shallow clone fails", job(9, "true", "10m", 5)[0] == 8 and runs[9].failed)


# -- Jenkins -----------------------------------------------------------------------

def jenkins():
    text = blocks("groovy")[0]
    script = re.search(r"sh\(returnStatus: true, script: '''(.*?)'''\)", text, re.S)[1]
    environment = dict(re.findall(r"^    (\w+) = '(.*)'$", text, re.M))
    expect("the whole history", "shallow: false" in text)

    def job(number, test, deadline, depth=0):
        folder = os.path.abspath("builds/jenkins/project")      # the workspace is cleaned, and what stands beside it stays
        os.makedirs(os.path.dirname(folder), exist_ok=True)
        shutil.rmtree(folder, ignore_errors=True)
        os.rename(clone(number, depth), folder)
        env = {**environment, "WORKSPACE": folder, "BAD": "HEAD", "GOOD": "c1", "TEST": test, "DEADLINE": deadline}
        status, out = run(script, folder, env, ("sh", "-xec"))
        return status, folder, out
    go_on(job)
    bring_nothing(job)
    for number, (test, due) in enumerate(SEARCHES, 3):
        status, folder, out = job(number, test, "10m")
        expect(f"{test}: {status} {out}", status == due and result_of(folder)["status"] == due)
    cases = dict(re.findall(r"if \(status == (\d+)\) \{\n\s*(\w+)\(", text))
    expect(f"what each status does: {cases}", cases == {"2": "unstable", "24": "build"} and re.search(r"else if \(status != 0\) \{\n\s*error\(", text))
    for path in re.findall(r"'(report/[^'*]+)'", text):
        expect(f"{path} is there", os.path.exists(os.path.join(folder, path)))


# -- the texts ---------------------------------------------------------------------

def scripts():
    """The scripts of all jobs, as they stand."""
    yield from blocks("sh")
    yield "\n".join(yaml_of(blocks("yaml")[0])["bisect"]["script"])
    yield from (step["run"] for step in yaml_of(blocks("yaml")[1])["jobs"]["bisect"]["steps"] if "run" in step)
    yield re.search(r"'''(.*?)'''", blocks("groovy")[0], re.S)[1]


def forms():
    for text in scripts():
        done = subprocess.run(["shellcheck", "-s", "bash", "-e", "SC2154", "-"], input=text, text=True, stdout=subprocess.PIPE)
        expect(f"shellcheck: {text}{done.stdout}", done.returncode == 0)
    jobs = {"gitlab": (blocks("yaml")[0], lambda text: ci_forms.of_gitlab(yaml_of(text))),
            "github": (blocks("yaml")[1], lambda text: ci_forms.of_github(yaml_of(text))), "jenkins": (blocks("groovy")[0], ci_forms.of_jenkins)}
    for name, (text, faults) in jobs.items():
        found = list(faults(text))
        expect(f"{name} knows the form: {found}", not found)
        for right, wrong in WRONG[name]:
            expect(f"the job has {right}", right in text)
            expect(f"{wrong} is refused", list(faults(text.replace(right, wrong))))
    if shutil.which("yamllint"):
        for text in blocks("yaml"):
            rules = "{extends: default, rules: {document-start: disable, truthy: {check-keys: false}, line-length: {max: 140}}}"
            done = subprocess.run(["yamllint", "-s", "-d", rules, "-"], input=text, text=True, stdout=subprocess.PIPE)
            expect(f"yamllint: {done.stdout}", done.returncode == 0)


if __name__ == "__main__":
    {"gitlab": gitlab, "github": github, "jenkins": jenkins, "forms": forms}[sys.argv[1]]()
