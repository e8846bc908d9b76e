"""Other test scripts of roam, each as a scene."""
import subprocess

from tried import PROGRAM, check, outside_gate, scene, script


@scene
@outside_gate("twenty attaches, each of which is timed, take a minute")
def shared(folder):
    """The short form of the tests of terminals that come and go."""
    run = subprocess.run(script("try_starts", "20", PROGRAM), stdout=subprocess.PIPE, stderr=subprocess.STDOUT, check=False)
    print(run.stdout.decode("utf-8", "replace"), end="", flush=True)
    check("all of them share a client process", run.returncode == 0, run.returncode)


@scene
@outside_gate("it types for a minute, with pauses of exact length")
def predictions(folder):
    """Test predictions."""
    run = subprocess.run(script("try_predictions", PROGRAM), stdout=subprocess.PIPE, stderr=subprocess.STDOUT, check=False)
    print(run.stdout.decode("utf-8", "replace"), end="", flush=True)
    check("what keys are predicted to show leaves no trace", run.returncode == 0, run.returncode)


@scene
@outside_gate("the commands of all pages and helps take a minute")
def pages(folder):
    """Test the commands in pages and helps."""
    run = subprocess.run(script("try_pages", PROGRAM), stdout=subprocess.PIPE, stderr=subprocess.STDOUT, check=False)
    print(run.stdout.decode("utf-8", "replace"), end="", flush=True)
    check("each command of pages and helps does what they say", run.returncode == 0, run.returncode)


@scene
def claims(folder):
    """Test the claims of TERM about a pane."""
    run = subprocess.run(script("try_claims", PROGRAM), stdout=subprocess.PIPE, stderr=subprocess.STDOUT, check=False)
    print(run.stdout.decode("utf-8", "replace"), end="", flush=True)
    check("each capability of TERM's entry holds, or is named", run.returncode == 0, run.returncode)


@scene
def traced(folder):
    """Test the page on the live session: files, sockets and processes."""
    run = subprocess.run(script("try_traced", PROGRAM), stdout=subprocess.PIPE, stderr=subprocess.STDOUT, check=False)
    print(run.stdout.decode("utf-8", "replace"), end="", flush=True)
    check("each file, socket and process of an attach is in docs/LIVE.md or docs/HOST_PROTOCOL.md", run.returncode == 0, run.returncode)
