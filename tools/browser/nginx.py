"""nginx in front of gateways, with the sites of deploy/, on a port of this machine and with files of its own."""
import contextlib
import getpass
import pathlib
import shutil
import subprocess
import time

from services import ADDRESS, TOP

MAIN = """\
daemon off;
user {user};
pid {room}/nginx.pid;
error_log {room}/error.log;
worker_processes 1;
events {{}}
http {{
    include /etc/nginx/mime.types;
    client_body_temp_path {room}/bodies;
    proxy_temp_path {room}/answers;
    fastcgi_temp_path {room}/fastcgi;
    uwsgi_temp_path {room}/uwsgi;
    scgi_temp_path {room}/scgi;
{site}}}
"""


def program(name):
    return shutil.which(name) or shutil.which(f"/usr/sbin/{name}")


def missing():
    """Which of the programs that are needed aren't there."""
    return [name for name in ("nginx", "openssl") if not program(name)]


def changed(text, changes):
    """A text with each change made, all of which have a place in it."""
    for old, new in changes:
        if old not in text:
            raise RuntimeError(f"the site has no {old!r}")
        text = text.replace(old, new)
    return text


def site(name, room, port, gateways):
    """A site of deploy/, with the address, the files and the gateways of this run. Gateways are ports, by the port that
    stands in the site."""
    text = (TOP / "deploy" / name).read_text()
    changes = [
        ("listen 443 ssl http2 so_keepalive=60s::;", f"listen {ADDRESS}:{port} ssl http2;"),
        ("server_name gate.example.org;", "server_name localhost;"),
        ("/var/log/nginx/guacgate.log", f"{room}/access.log"),
        ("/etc/nginx/guacgate/", f"{room}/"),
        ("/srv/guacgate/web", str(TOP / "web")),
    ]
    return changed(text, changes + [(f"{ADDRESS}:{old}", f"{ADDRESS}:{new}") for old, new in gateways.items()])


def run_quietly(*words):
    return subprocess.run(words, check=True, stdout=subprocess.PIPE, stderr=subprocess.DEVNULL).stdout.decode()


def make_certificate(room):
    run_quietly(program("openssl"), "req", "-x509", "-newkey", "rsa:2048", "-nodes", "-days", "2", "-subj", "/CN=localhost", "-keyout", f"{room}/key.pem", "-out", f"{room}/certificate.pem")


def make_login(file, user, password):
    """Adds a login to a file."""
    with file.open("a") as into:
        into.write(f"{user}:{run_quietly(program('openssl'), 'passwd', '-6', password)}")


def wait_for(process, pid_file):
    """Waits until nginx listens: it tries a port that is taken for some seconds, and writes its file behind that."""
    while not pid_file.exists():
        if process.poll() is not None:
            raise RuntimeError("nginx doesn't start")
        time.sleep(0.05)


@contextlib.contextmanager
def nginx(room, text):
    """A running nginx with a site."""
    conf = pathlib.Path(room) / "nginx.conf"
    conf.write_text(MAIN.format(user=getpass.getuser(), room=room, site=text))
    # It tells of its faults in error.log, but of those of the file itself here.
    process = subprocess.Popen([program("nginx"), "-q", "-c", conf, "-p", room])
    try:
        wait_for(process, pathlib.Path(room) / "nginx.pid")
        yield process
    finally:
        process.terminate()
        process.wait()
