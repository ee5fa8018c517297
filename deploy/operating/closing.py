"""Folders into which root alone may put anything, since what stands there is given to another user or followed."""
import os
import pathlib
import pwd

from .settings import Wrong


def close_sockets_folder(settings):
    """Has root alone put anything into the folder of HAProxy's sockets. HAProxy begins as root, and gives those that it
    makes there to its user, who could have put a link in their place."""
    place = pathlib.Path(settings.haproxy_run)
    if place.is_dir():
        os.chown(place, 0, 0)
        place.chmod(0o755)


def refuse_no_user(settings):
    """An error where the user is missing as which changes and decisions are logged."""
    if not (settings.audit or settings.decisions):
        return
    try:
        pwd.getpwnam("pdpd-replica")
    except KeyError:
        raise Wrong("there is no user pdpd-replica, as which changes and decisions are logged: useradd --system "
                    "--home-dir /nonexistent --shell /usr/sbin/nologin pdpd-replica") from None


def close_archives_folder(settings):
    """Has root alone put anything into the folder of the archives: what stands in a shard's place there is given to the
    daemon's user. (Versions before this one had left it the folder.)"""
    place = pathlib.Path(settings.archives)
    if not settings.audit or not place.is_dir():
        return
    refuse_no_user(settings)
    os.chown(place, 0, pwd.getpwnam("pdpd-replica").pw_gid)
    place.chmod(0o751)
    for path in place.iterdir():
        if path.is_symlink() and path.lstat().st_uid:
            raise Wrong(f"{path} is a link: look who put it there, and take it away")
