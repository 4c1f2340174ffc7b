"""The Java classes: javac with all warnings as errors, over JNA, and over java.lang.foreign where a JDK 22 is there."""
import glob
import json
import re
import xml.etree.ElementTree

from .common import CLIENTS, EXAMPLES, TOP, answers_suite, has_done, has_figures, kit, prints_page, run, text_of
from .served import checks_of_server

BINDING = f"{TOP}/bindings/java"
JNA = "/usr/share/java/jna.jar"
TOMCAT = "/usr/share/java/tomcat10-embed-core.jar:/usr/share/java/jakarta-annotation-api.jar"
COMPILER = ["javac", "--release", "11", "-Xlint:all", "-Werror"]
# a heap of one size, so that what grows is not the heap
JAVA_WORDS = ["-Xms64m", "-Xmx64m", "-XX:+AlwaysPreTouch"]
# of a Java that runs for seconds: one compiler, which takes less of the processors, and one thread that collects
QUICK = ["-XX:TieredStopAtLevel=1", "-XX:+UseSerialGC"]


def newer_java():
    """The command of a Java 22 or later, or None."""
    for path in sorted(glob.glob("/usr/lib/jvm/*/bin/java")):
        version = re.search(r'version "(\d+)', run([path, "-version"])[2])
        if version and int(version[1]) >= 22:
            return path
    return None


def javas(room):
    """How classes are run: over JNA, and over java.lang.foreign."""
    yield "JNA", ["java", *JAVA_WORDS, "-cp", f"{room}/odfilter.jar:{JNA}"]
    newer = newer_java()
    if newer is None:
        print("java.lang.foreign is not tried: there is no JDK 22 or later")
    else:
        yield "foreign", [newer, *JAVA_WORDS, "--enable-native-access=ALL-UNNAMED", "-cp", f"{room}/odfilter.jar"]


def compiled(room, name, sources, more=""):
    """A folder of classes over the jar."""
    words = [*COMPILER, "-cp", f"{room}/odfilter.jar{more}", "-d", f"{room}/{name}", *sources]
    return f"{name} is compiled", *has_done(words)


def with_classes(words, folder, more=""):
    """The words that run a Java, with more classes on its path."""
    return [*words[:-1], f"{words[-1]}:{folder}{more}"]


def is_built(room):
    for words in ([], [kit()], [room, room]):
        yield f"bindings/java/build with {len(words)} words", run([f"{BINDING}/build", *words])[0] == 2, words
    yield "bindings/java/build", *has_done([f"{BINDING}/build", kit(), room])
    tests = glob.glob(f"{BINDING}/src/test/java/org/odfilter/*.java")
    yield compiled(room, "java-tests", tests, f":{JNA}")
    for name, words in javas(room):
        # the library in the jar is tried: no variable names another
        words = ["env", "-u", "ODFILTER_LIBRARY", *with_classes(words, f"{room}/java-tests"), "org.odfilter.Tests"]
        status, out, err = run(words)
        last = out.decode().splitlines()[-1:]
        is_well = status == 0 and not err and re.fullmatch(r"[1-9]\d* passed, 0 failed", "".join(last)) is not None
        yield f"the tests over {name}", is_well, (status, out[-2_000:], err[-2_000:])
        yield from has_figures(f"Java, {name}", 4, out)
    version = xml.etree.ElementTree.fromstring(text_of(f"{BINDING}/pom.xml")).find("{*}version").text
    wanted = json.loads(text_of(f"{TOP}/include/odfilter.json"))["version"]
    yield "the version of pom.xml is the library's", version == wanted, version


def answers(room):
    yield compiled(room, "java-suite", [f"{CLIENTS}/Suite.java"])
    for name, [java, *words] in javas(room):
        words = [java, *QUICK, *with_classes(words, f"{room}/java-suite"), "Suite"]
        yield from answers_suite(room, f"Suite.java over {name}", words)


def page(room):
    words = ["java", "-cp", f"odfilter.jar:{JNA}", "Page.java"]
    yield from prints_page(room, f"{BINDING}/README.md", "java", f"{room}/Page.java", words)


def example(room):
    sources = glob.glob(f"{EXAMPLES}/servlet/*.java")
    words = [it for it in COMPILER if it != "-Xlint:all"]
    done = has_done([*words, "-cp", f"{room}/odfilter.jar:{TOMCAT}", "-d", f"{room}/servlet", *sources])
    yield "examples/servlet is compiled", *done
    run_words = ["java", "-cp", f"{room}/odfilter.jar:{JNA}:{TOMCAT}:{room}/servlet", "Server"]
    yield from checks_of_server("examples/servlet", run_words, room)


def checks(room):
    for group in (is_built, answers, page, example):
        yield from group(room)


GROUPS = [checks]
