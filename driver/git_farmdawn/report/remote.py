"""The page of a commit on the server that the remote `origin` is on, as far as its URL tells it."""
from __future__ import annotations

import re
from typing import Optional

# what stands between a repository and the name of a commit, by a word of the server's name, or of
# the setting farmdawn.link
FORMS = {
    "github": "/commit/",
    "gitlab": "/-/commit/",
    "gitea": "/commit/",
    "forgejo": "/commit/",
    "codeberg": "/commit/",
    "bitbucket": "/commits/",
}
HOST = r"(?:[^@/\s]*@)?([A-Za-z0-9][A-Za-z0-9.-]*)"
PATH = r"/*([A-Za-z0-9_.~-]+(?:/[A-Za-z0-9_.~-]+)+)/*"
BY_SCHEME = re.compile(r"(https?|ssh|git)://%s(:[0-9]+)?/%s" % (HOST, PATH))
BY_COLON = re.compile(r"%s:%s" % (HOST, PATH))


def web_of(url: str) -> Optional[str]:
    """The page of a repository, without what a URL may have of a user or a password; None where it
    is no server's."""
    found = BY_SCHEME.fullmatch(url)
    if found:
        scheme, host, port, path = found.groups()
        is_web = scheme.startswith("http")
        return "%s://%s%s/%s" % (
            scheme if is_web else "https",
            host,
            (port or "") if is_web else "",
            re.sub(r"\.git$", "", path),
        )
    found = BY_COLON.fullmatch(url)
    return (
        "https://%s/%s" % (found.group(1), re.sub(r"\.git$", "", found.group(2))) if found else None
    )


def link_of(web: Optional[str], form: str, commit: str) -> Optional[str]:
    """The page of a commit, where the form of the server is known: by its name, or by the
    setting."""
    if web is None:
        return None
    host = web.split("/")[2].lower()
    middle = FORMS.get(form) or next((FORMS[word] for word in FORMS if word in host), None)
    return web + middle + commit if middle else None
