"""Asks a real directory by ldap://. It is a domain of Samba with users, nested groups and planted delegations. What
somebody may really do there is the truth, and ldapsearch's export another reader. It needs root, namespaces and the
packages samba, winbind, samba-ad-provision and ldap-utils, and is skipped without them.
"""
import concurrent.futures
import os
import pathlib
import random
import re
import resource
import subprocess
import sys
import tempfile
from typing import Any, Dict, List, Set

import audit
import faulty_proxy
import preload
import samba_domain
from samba_domain import ADDRESS, BASE, HOST, NETBIOS, PASSWORD

SERVER, DOMAIN = f"ldap://{HOST}", "audit.test"
PLANTS, TRUTH = f"OU=Plants,{BASE}", f"OU=Truth,{BASE}"
DESCRIPTION, TELEPHONE = "bf967950-0de6-11d0-a285-00aa003049e2", "bf967a49-0de6-11d0-a285-00aa003049e2"
RESET, SYNC = "00299570-246d-11d0-a768-00aa006e0529", "1131f6ad-9c07-11d1-f79f-00c04fc2dcd2"
# Planted delegations: an object, an ACE, and who can do what by the report.
PLANTED = [("reset", f"(OA;;CR;{RESET};;%bob)", ("reset-password", "bob")),
           ("members", "(OA;;WP;bf9679c0-0de6-11d0-a285-00aa003049e2;;%dl-nested)", ("add-member", "dl-nested")),
           ("taken", "(A;;WO;;;%eve)", ("takeover", "eve")), ("open", "(A;;GA;;;WD)", ("everyone-changes", "Everyone")),
           ("own", f"(OA;;WP;{TELEPHONE};;%gus)", None)]
USERS = ("ann", "bob", "ada", "eve", "gus")
LISTENING = "10.97.0.8"
OBJECTS = 100
SECONDS = 5.0  # of a processor for the whole directory with its schema


class World:
    """The domain, with what is planted in it."""

    def __init__(self, folder: pathlib.Path) -> None:
        self.domain = samba_domain.Domain(folder)
        self.domain.provision()
        self.database = self.domain.database()
        self.sids: Dict[str, str] = {}
        self._people()
        self._plant()

    def _people(self) -> None:
        for name in USERS:
            self.database.newuser(name, PASSWORD)
        for name, kind in (("g-help", -2147483646), ("dl-help", -2147483644), ("dl-nested", -2147483644)):
            self.database.newgroup(name, grouptype=kind)
        for group, member in (("g-help", "ann"), ("dl-help", "g-help"), ("dl-nested", "dl-help"),
                              ("Domain Admins", "ada")):
            self.database.add_remove_group_members(group, [member])
        self.domain_sid = self.database.get_domain_sid()
        for name in (*USERS, "g-help", "dl-help", "dl-nested"):
            [found] = self.database.search(BASE, expression=f"(sAMAccountName={name})", attrs=["objectSid"])
            self.sids[name] = self.database.schema_format_value("objectSid", found["objectSid"][0]).decode()

    def _add(self, name: str, of_class: str, sddl: str) -> None:
        from samba.dcerpc import security
        from samba.ndr import ndr_pack
        sddl = re.sub(r"%([a-z-]+)", lambda found: self.sids[found[1]], sddl)
        packed = ndr_pack(security.descriptor.from_sddl(sddl, security.dom_sid(self.domain_sid)))
        self.database.add({"dn": name, "objectClass": of_class, "nTSecurityDescriptor": packed})

    def _plant(self) -> None:
        readable = "O:DAG:DAD:PAI(A;;GA;;;SY)(A;;RPLCRC;;;AU)"
        for place in (PLANTS, TRUTH):
            self._add(place, "organizationalUnit", readable)
        for name, ace, _ in PLANTED:
            self._add(f"CN={name},{PLANTS}", "user" if name == "reset" else "group" if name == "members" else "contact",
                      f"{readable}{ace}")
        chance = random.Random(97)
        who = [*(f"%{name}" for name in (*USERS, "g-help", "dl-help", "dl-nested")), "AU", "WD", "BU", "BA", "DA", "NU"]
        for number in range(OBJECTS):
            aces = "".join(chance.choice([f"(A;;WP;;;{one})", f"(D;;WP;;;{one})", f"(OA;;WP;{DESCRIPTION};;{one})",
                                          f"(OA;;WP;{TELEPHONE};;{one})", f"(A;;RPLC;;;{one})"])
                           for one in chance.sample(who, 3))
            self._add(f"CN=t{number},{TRUTH}", "contact",
                      f"O:{chance.choice(['DA', '%ann', '%bob'])}G:DAD:PAI{aces}(A;;RPLCRC;;;AU)(A;;GA;;;SY)")

    def names(self) -> Set[str]:
        """Each object that the directory has, by its files."""
        [root] = self.database.search("", scope=0, attrs=["namingContexts"])
        return {str(one.dn) for context in map(str, root["namingContexts"])
                for one in self.database.search(context, scope=2, attrs=["1.1"], controls=["search_options:1:1"])}


def connected(user: str) -> Any:
    """A connection of a user, by a password."""
    import samba
    from samba.credentials import Credentials
    from samba.param import LoadParm
    parameters = LoadParm()
    parameters.load(os.environ["SMB_CONF_PATH"])
    credentials = Credentials()
    credentials.guess(parameters)
    credentials.set_username(user)
    credentials.set_domain(NETBIOS)
    credentials.set_password(PASSWORD)
    return samba.Ldb(f"ldap://{ADDRESS}", lp=parameters, credentials=credentials)


class Place(audit.Place):
    """The command, as a user who has a ticket. Connections are allowed here."""

    world: World

    def become(self, user: str) -> None:
        self.environment = {**self.environment, **self.world.domain.ticket(user),
                            "PYTHONPATH": str(preload.TOP / "python")}

    def credentials(self, user: str, password: str = PASSWORD) -> str:
        path = self.folder / f"credentials.{user}"
        path.write_text(f"username = {user}\npassword = {password}\ndomain = {NETBIOS}\n")
        path.chmod(0o600)
        return str(path)


def test_whole(place: Place) -> None:
    """All objects come, with what is planted, and no option says domain or schema."""
    place.become("Administrator")
    ended = place.ask("risks", SERVER, "--to", "jsonl")
    found = {one["name"]: one for one in ended.objects}
    names = place.world.names()
    place.expect(sorted(names - found.keys()), [], "objects that are lost")
    place.expect(f"the domain is {place.world.domain_sid}, as {SERVER} says" in ended.stderr, True, ended.stderr)
    for name, _, wanted in PLANTED:
        said = {(one["rule"], one["trustee"].partition(" (")[0]) for one in found[f"CN={name},{PLANTS}"]["findings"]
                if one["rule"] != "inheritance-cut"}
        place.expect(wanted in said if wanted else not said, True, f"{name}: {said}")
    place.become("gus")
    of_gus = {one["name"] for one in place.ask("risks", SERVER, "--to", "jsonl").objects}
    place.expect(of_gus <= found.keys() and f"CN=open,{PLANTS}" in of_gus, True, "what an ordinary user is shown")


def test_export(place: Place) -> None:
    """ldapsearch's export of the same objects has the same findings."""
    place.become("Administrator")
    for name, base in (("domain.ldif", BASE), ("schema.ldif", f"CN=Schema,CN=Configuration,{BASE}")):
        words = ["ldapsearch", "-LLL", "-x", "-H", f"ldaps://{HOST}", "-D", f"ada@{DOMAIN}", "-w", PASSWORD,
                 "-b", base, "-E", "pr=500/noprompt", "-E", "!1.2.840.113556.1.4.801=::MAMCAQc=", "(objectClass=*)",
                 "*", "nTSecurityDescriptor"]
        done = subprocess.run(words, capture_output=True, env={**place.environment, "LDAPTLS_REQCERT": "never"})
        place.write(name, re.sub(rb"^# .*\n", b"", done.stdout, flags=re.M))
    exported = place.told("risks", "domain.ldif", "--schema", "schema.ldif")
    asked = place.told("risks", f"{SERVER}/{BASE}")
    place.expect(len(exported) > 250, True, f"the export has {len(exported)} objects")
    place.expect({name: one for name, one in asked.items() if one != exported.get(name)},
                 {}, "what the export says otherwise")


def test_truth(place: Place) -> None:
    """Who can write an attribute by the report is who can really write it."""
    import ldb
    for user in USERS:
        place.become(user)
        objects = place.objects("can", f"{user}@{DOMAIN}", "WP", f"{SERVER}/{TRUTH}??one")
        said = {one["name"]: any("only for" not in found["text"] or "description" in found["text"]
                                 for found in one["findings"] if found["rule"] == "can") for one in objects}
        place.expect(len(said), OBJECTS, f"objects for {user}")
        place.expect([one["name"] for one in objects if one["answer"] == "unknown"], [], f"unknown for {user}")
        directory, really = connected(user), {}
        for name in said:
            message = ldb.Message(ldb.Dn(directory, name))
            message["description"] = ldb.MessageElement(f"by {user}", ldb.FLAG_MOD_REPLACE, "description")
            try:
                directory.modify(message)
                really[name] = True
            except ldb.LdbError as error:
                really[name] = error.args[0] != ldb.ERR_INSUFFICIENT_ACCESS_RIGHTS
        place.expect({name: one for name, one in said.items() if one != really[name]}, {}, f"{user}: what differs")
        place.expect(0 < sum(really.values()) < OBJECTS, True, f"{user} may write {sum(really.values())} of {OBJECTS}")


def test_tokens(place: Place) -> None:
    """A token is the one that the server itself makes for the account."""
    for user, word in (("ann", f"ann@{DOMAIN}"), ("ada", f"{NETBIOS}\\ada")):
        place.become(user)
        directory = connected(user)
        [root] = directory.search("", scope=0, attrs=["tokenGroups"])
        real = {directory.schema_format_value("objectSid", one).decode() for one in root["tokenGroups"]}
        real -= {"S-1-5-64-10"}  # how somebody has logged on
        ended = place.ask("can", word, "WP", f"{SERVER}/{PLANTS}", "--into", f"{user}.db")
        kept = place.ask("can", word, "WP", f"{user}.db", "--to", "csv")
        place.expect(kept.status in (0, 1), True, f"a token that is kept: {kept}")
        told = place.folder / f"{user}.db"
        import json
        import sqlite3
        [(text,)] = sqlite3.connect(told).execute("SELECT value FROM facts WHERE kind = 'token'").fetchall()
        sids, _, _, privileges, *_ = json.loads(text)
        place.expect(sorted(real - set(sids)), [], f"what the token of {user} lacks: {ended}")
        place.expect(sorted(set(sids) - real - {"S-1-5-15"}), [], f"what the token of {user} has too much")
        place.expect("take-ownership" in privileges, user == "ada", f"privileges of {user}: {privileges}")
    ended = place.ask("can", f"Administrator@{DOMAIN}", "WP", f"{SERVER}/{PLANTS}")
    place.expect("Administrator is root on a domain controller of Samba" in ended.stderr, True, f"root: {ended}")
    ended = place.ask("can", f"nobody@{DOMAIN}", "WP", SERVER)
    place.expect((ended.status, "knows no such account" in ended.stderr), (2, True), f"nobody: {ended}")
    ended = place.ask("can", f"ann@{DOMAIN}", "WP", place.table([("a", "D:")]))
    place.expect((ended.status, "is an account" in ended.stderr), (2, True), f"no server: {ended}")


def test_nearest(place: Place) -> None:
    """Without a server the domain of the ticket is asked, and without a ticket a sentence says what helps."""
    place.become("gus")
    ended = place.ask("risks", f"ldap:///{PLANTS}??base", "--to", "jsonl")
    place.expect([one["name"] for one in ended.objects], [PLANTS], f"ldap:///: {ended}")
    # Who has a password and no domain has none that could be asked.
    bare, realms, wrong = (place.folder / name for name in ("bare.conf", "krb5.conf", "wrong"))
    bare.write_text("[global]\n")
    realms.write_text("[libdefaults]\n")
    for user, said in (("gus", "says which domain"), ("gus@nowhere.test", "controller of nowhere.test")):
        wrong.touch(0o600)
        wrong.write_text(f"username = {user}\npassword = {PASSWORD}\n")
        ended = place.ask("risks", "ldap:///", "--credentials", str(wrong), SMB_CONF_PATH=str(bare),
                          KRB5_CONFIG=str(realms), KRB5CCNAME="FILE:/nowhere")
        place.expect((ended.status, said in ended.stderr, "NAME@DOMAIN" in ended.stderr, ended.stdout),
                     (2, True, True, ""), f"ldap:/// by {user} and a password: {ended}")
    place.environment = {**place.environment, "KRB5CCNAME": "FILE:/nowhere"}
    for address in ("ldap:///", SERVER):
        ended = place.ask("risks", address)
        place.expect((ended.status, "kinit" in ended.stderr), (2, True), f"{address} without a ticket: {ended}")


def test_refused(place: Place) -> None:
    """What never opens is status 2, and a sentence says what helps. That there is nothing is no fault."""
    place.become("gus")
    for query in ("??one", "??sub?(cn=nothing)"):
        ended = place.ask("risks", f"{SERVER}/CN=open,{PLANTS}{query}")
        place.expect((ended.status, "lists no such object" in ended.stderr), (0, True), f"nothing of {query}: {ended}")
    for address, *words in ((f"{SERVER}/CN=Nowhere,{BASE}", "there is no such object"),
                            ("ldap://nowhere.audit.test", "nowhere.audit.test isn't known"),
                            (f"{SERVER}/{BASE}?cn", "??SCOPE?FILTER"), (f"{SERVER}/{BASE}??all", "the scope"),
                            (f"ldaps://{HOST}", "needs a password"), ("ldap://10.97.0.77", "10.97.0.77")):
        ended = place.ask("risks", address)
        place.expect((ended.status, [word for word in words if word not in ended.stderr], ended.stdout), (2, [], ""),
                     f"{address}: {ended}")
    for name, password in (("gus", "wrong"), ("nobody", PASSWORD)):
        ended = place.ask("risks", SERVER, "--credentials", place.credentials(name, password))
        place.expect((ended.status, password in str(ended)), (2, False), f"credentials of {name}: {ended}")


def test_sealed(place: Place) -> None:
    """ldaps:// checks the certificate and its name, and needs the password."""
    authority = str(place.world.domain.folder / "private/tls/ca.pem")
    words = ("risks", f"ldaps://{HOST}/{PLANTS}", "--credentials", place.credentials("gus"))
    place.become("gus")
    ended = place.ask(*words, "--ca", authority, "--to", "jsonl")
    place.expect(len(ended.objects), len(PLANTED) + 1, f"ldaps: {ended}")
    place.expect(place.ask(*words).status, 2, "a certificate of no known authority")
    ended = place.ask("risks", f"ldaps://{ADDRESS}/{PLANTS}", *words[2:], "--ca", authority)
    place.expect(ended.status, 2, f"a name that isn't the certificate's: {ended}")


class Listening(faulty_proxy.Proxy):
    """Keeps what the server sends."""

    heard = b""

    def _spoil(self, data: bytes, sent: int) -> bytes:
        self.heard += data
        return data


def test_heard(place: Place) -> None:
    """ldap:// is sealed, whatever the machine's smb.conf says."""
    place.become("gus")
    careless = place.folder / "careless.conf"
    careless.write_text(place.world.domain.client.read_text() + "client ldap sasl wrapping = plain\n")
    place.environment = {**place.environment, "SMB_CONF_PATH": str(careless)}
    subprocess.run(["ip", "address", "add", f"{LISTENING}/24", "dev", "lo"], check=True)
    proxy = Listening(LISTENING, 389, ADDRESS, "", 0, 0)
    try:
        ended = place.ask("show", f"ldap://{LISTENING}/{PLANTS}??base", "--credentials", place.credentials("gus"))
    finally:
        proxy.close()
    place.expect((PLANTS in ended.stdout, len(proxy.heard) > 1_000, b"Plants" in proxy.heard), (True, True, False),
                 f"what is heard: {ended}")


class Ranged:
    """A session that gives values in ranges of three, as a server does where there are many."""

    def __init__(self, values: List[bytes]) -> None:
        self.values = values

    def part(self, at: int) -> Dict[str, Any]:
        end = at + 2 if at + 3 < len(self.values) else "*"
        return {"dn": "CN=group", f"member;range={at}-{end}": self.values[at:at + 3]}

    def search(self, base: Any, scope: int, pattern: str, attributes: List[str]) -> List[Any]:
        part = self.part(int(attributes[0].rpartition("=")[2].partition("-")[0]))
        del part["dn"]
        return [part]


class Message(Dict[str, Any]):
    dn = "CN=group"


def test_many(place: Place) -> None:
    """Values that come in ranges, and entries that are too long for an answer, are whole."""
    sys.path.insert(0, str(preload.TOP / "python"))
    from sdtool.audit.live import client, ldap_client
    session: Any = Ranged([b"member %d" % number for number in range(10)])
    name, attributes = ldap_client._entry(session, Message(session.part(0)))
    place.expect((name, attributes), ("CN=group", {"member": [value.hex() for value in session.values]}), "ranges")
    for wrong in (0, 4):  # the same values again, or not all
        again: Any = Ranged(session.values)
        again.part = lambda at: session.part(at and wrong)
        try:
            place.expect(ldap_client._entry(again, Message(again.part(0))), None, f"a range from {wrong}, and not 3")
        except client.Refusal as error:
            place.expect("no more values" in error.reason, True, f"why a range from {wrong} is refused")
    values = ["61" * 200_000] * 10
    pieces = list(ldap_client._pieces("CN=large", {"a": values, "b": ["62"]}))
    place.expect([piece[2] for piece in pieces], [False] * (len(pieces) - 1) + [True], "where an entry ends")
    place.expect(([value for piece in pieces for value in piece[1].get("a", [])], pieces[-1][1].get("b")),
                 (values, ["62"]), "a long entry")
    place.expect(len(pieces) > 2, True, f"{len(pieces)} pieces of 4 MB")


def test_sacl(place: Place) -> None:
    """SACLs come to those who may read them; others are told, and lose nothing else."""
    for user, has in (("gus", False), ("Administrator", True)):
        place.become(user)
        ended = place.ask("show", f"{SERVER}/{BASE}??base", "--sacl")
        place.expect(("SACL" in ended.stdout, "SACLs can't be read" in ended.stderr), (has, not has),
                     f"{user}: {ended}")
        place.expect("DACL" in ended.stdout, True, f"the DACL of {user}")


FAULTS = [("hang", 200_000, 1), ("lose", 150_000, 1), ("delay", 50_000, 2), ("cut", 100_000, 1), ("cut", 250_000, 2),
          ("damage", 200_000, 1), ("", 0, 0), ("cut", 100_000, 99), ("cut", 400_000, 99), ("damage", 1_000, 99)]


def test_faults(place: Place) -> None:
    """Behind a proxy that cuts, hangs, delays or damages, each object comes once, or is said to be missing: where the
    list has one page, and where it has many."""
    place.become("gus")
    schema, credentials = f"CN=Schema,CN=Configuration,{BASE}", place.credentials("gus")
    faults = [*((BASE, *fault) for fault in FAULTS), (schema, "cut", 300_000, 1), (schema, "lose", 900_000, 1)]
    whole = {base: place.ask("risks", f"{SERVER}/{base}", "--to", "jsonl").objects for base in (BASE, schema)}

    def read(number: int) -> None:
        base, fault, at, times = faults[number]
        server = f"10.97.0.{9 + number}"
        # The server would listen there too if the address were there before.
        subprocess.run(["ip", "address", "add", f"{server}/24", "dev", "lo"], check=True)
        proxy = faulty_proxy.Proxy(server, 389, ADDRESS, fault, at, times)
        try:
            ended = place.ask("risks", f"ldap://{server}/{base}", "--credentials", credentials, "--timeout", "40",
                              "--to", "jsonl")
        finally:
            proxy.close()
        wanted = sorted((one["name"], one["answer"]) for one in whole[base])
        found = sorted((one["name"], one["answer"]) for one in ended.objects)
        rest = (f"ldap://{server}/{base}: the rest", "unknown")
        is_said = rest in found and ended.status == 3 and {*found} - {*wanted} == {rest}
        is_closed = ended.status == 2 and not ended.stdout
        place.expect(found == wanted or times == 99 and (is_said or is_closed), True,
                     f"{fault} at {at}, {times} times: {len(found)} of {len(wanted)}, {str(ended)[-800:]}")

    with concurrent.futures.ThreadPoolExecutor(6) as threads:
        list(threads.map(read, range(len(faults))))


def test_speed(place: Place) -> None:
    """The directory is read in time, with its schema: what the command takes of a processor, whatever else runs."""
    place.become("Administrator")
    before = resource.getrusage(resource.RUSAGE_CHILDREN)
    place.ask("risks", SERVER)
    after = resource.getrusage(resource.RUSAGE_CHILDREN)
    seconds = after.ru_utime + after.ru_stime - before.ru_utime - before.ru_stime
    place.expect(seconds < SECONDS, True, f"{seconds} seconds of a processor")


TESTS = (test_whole, test_export, test_truth, test_tokens, test_nearest, test_refused, test_sealed, test_heard,
         test_many, test_sacl, test_faults)
BY_NAME = (test_speed,)  # which takes a machine without other work


def main(count: preload.Count) -> None:
    missing, python = samba_domain.missing(), preload.python_with("click", "rich", "samba", "ldb")
    if missing or not python:
        print(f"skipped: a domain needs {missing or 'a Python with click, rich and samba (Debian: python3-samba)'}")
        return
    preload.go_on_in(python)
    samba_domain.go_inside()
    with tempfile.TemporaryDirectory(prefix="sdtool-domain-") as folder:
        world = World(pathlib.Path(folder) / "dc")
        os.environ["SMB_CONF_PATH"] = str(world.domain.client)
        os.environ.setdefault("SDTOOL_LIBRARY", preload.LIBRARY)
        with world.domain.started():
            for test in filter(preload.is_chosen, TESTS + BY_NAME * bool(preload.ONLY)):
                with tempfile.TemporaryDirectory() as own:
                    place = Place(own, python, count)
                    place.world = world
                    try:
                        test(place)
                    except Exception as error:  # one test that breaks doesn't hide what the others find
                        count.add(False, f"{test.__name__}: {type(error).__name__}: {error}")
