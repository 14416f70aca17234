//! Answers requests from standard input, one a line: words, of which bytes are in hex, and `-` is none. `tests/library`
//! compares the answers with those of the library. `time DESCRIPTOR SID` measures checks and empty calls.
use sdtool::*;
use std::io::{self, BufRead, Write};
use std::sync::Arc;
use std::thread;
use std::time::Instant;

type Answer = Result<String, Fault>;

fn hex(bytes: &[u8]) -> String {
    let mut text: String = bytes.iter().map(|byte| format!("{byte:02x}")).collect();
    if text.is_empty() {
        text.push('-');
    }
    text
}

/// A number, or `-`.
fn number<T: ToString>(value: Option<T>) -> String {
    value.map_or("-".to_owned(), |value| value.to_string())
}

/// The words of a request, taken one after the other.
struct Words<'a>(std::str::SplitWhitespace<'a>);

impl Words<'_> {
    fn word(&mut self) -> &str {
        self.0.next().expect("a word is missing")
    }

    fn number(&mut self) -> u32 {
        self.word().parse().expect("this is no number")
    }

    fn flag(&mut self) -> bool {
        self.number() == 1
    }

    fn bytes(&mut self) -> Vec<u8> {
        let word = self.word();
        let digits = if word == "-" { "" } else { word };
        (0..digits.len()).step_by(2).map(|at| u8::from_str_radix(&digits[at..at + 2], 16).unwrap()).collect()
    }

    /// The bytes of a column, and its offsets.
    fn column(&mut self) -> (Vec<u8>, Vec<u64>) {
        let (data, offsets) = (self.bytes(), self.bytes());
        (data, offsets.chunks_exact(8).map(|offset| u64::from_le_bytes(offset.try_into().unwrap())).collect())
    }

    fn text(&mut self) -> String {
        String::from_utf8(self.bytes()).expect("this is no UTF-8")
    }

    fn sid(&mut self) -> Result<Sid, Fault> {
        Sid::from_bytes(&self.bytes())
    }

    fn sid_or_none(&mut self) -> Result<Option<Sid>, Fault> {
        let bytes = self.bytes();
        if bytes.is_empty() {
            return Ok(None);
        }
        Sid::from_bytes(&bytes).map(Some)
    }

    fn guid(&mut self) -> Option<Guid> {
        self.bytes().try_into().ok().map(Guid)
    }

    fn ace(&mut self) -> Result<Ace, Fault> {
        let (kind, flags, mask) = (self.number() as u8, self.number() as u8, self.number());
        let sid = self.sid()?;
        Ace::with_types(kind, flags, mask, sid, self.guid(), self.guid())
    }

    fn acl(&mut self) -> Result<Acl, Fault> {
        let count = match self.word() {
            "absent" => return Ok(Acl::Absent),
            "null" => return Ok(Acl::Null),
            count => count.parse::<usize>().unwrap(),
        };
        (0..count).map(|_| self.ace()).collect::<Result<_, _>>().map(Acl::List)
    }

    fn descriptor(&mut self) -> Result<SecurityDescriptor, Fault> {
        SecurityDescriptor::from_bytes(&self.bytes())
    }

    fn mapping(&mut self) -> Mapping {
        [Mapping::File, Mapping::Key, Mapping::Directory][self.number() as usize]
    }

    /// Two lists of SIDs, and who has them.
    fn token(&mut self) -> Result<Token, Fault> {
        let mut lists = [Vec::new(), Vec::new()];
        for list in &mut lists {
            for _ in 0..self.number() {
                list.push(self.sid());
            }
        }
        let [enabled, denying] = lists.map(|list| list.into_iter().collect::<Result<Vec<_>, _>>());
        let mut token = Token::new(&enabled?, &denying?)?;
        let options = self.number();
        if options & sys::SDTOOL_HAS_LEVEL != 0 {
            token = token.level(self.number());
        }
        if options & sys::SDTOOL_SECURITY != 0 {
            token = token.security();
        }
        if options & sys::SDTOOL_TAKE_OWNERSHIP != 0 {
            token = token.take_ownership();
        }
        Ok(token)
    }

    fn request(&mut self) -> Result<Request, Fault> {
        Ok(Request {
            mapping: self.mapping(),
            maximum: self.flag(),
            object_type: self.guid(),
            principal_self: self.sid_or_none()?,
            ..Request::new(self.number())
        })
    }

    fn creation(&mut self) -> Result<Creation, Fault> {
        let kind = [Kind::File, Kind::Container][self.number() as usize];
        let mapping = self.mapping();
        let (owner, group, creator) = (self.sid()?, self.sid()?, self.bytes());
        let creator = if creator.is_empty() { None } else { Some(SecurityDescriptor::from_bytes(&creator)?) };
        Ok(Creation { creator, mapping, ..Creation::new(owner, group, kind) })
    }

    fn types(&mut self) -> Option<Option<Guid>> {
        match self.word() {
            "any" => None,
            "none" => Some(None),
            _ => Some(self.guid()),
        }
    }

    fn matching(&mut self) -> Result<Match, Fault> {
        let mut found = Match::default().flags(self.number() as u8, self.number() as u8);
        if let Some(sid) = self.sid_or_none()? {
            found = found.sid(sid);
        }
        if self.flag() {
            found = found.kind(self.number() as u8);
        }
        if self.flag() {
            found = found.mask(self.number());
        }
        if let Some(guid) = self.types() {
            found = found.object_type(guid);
        }
        if let Some(guid) = self.types() {
            found = found.inherited_object_type(guid);
        }
        Ok(found)
    }

    fn change(&mut self) -> Result<Change, Fault> {
        let kind = self.word().to_owned();
        let which = if self.word() == "S" { Which::Sacl } else { Which::Dacl };
        Ok(match &*kind {
            "put" => {
                let place = match self.number() {
                    sys::SDTOOL_AT_END => PutAt::End,
                    sys::SDTOOL_BY_ORDER => PutAt::Order,
                    place => PutAt::Place(place),
                };
                Change::put(which, place, &self.ace()?)
            }
            "take" => Change::take(which, self.number()),
            "replace" => Change::replace(which, self.number(), &self.ace()?),
            "take-each" => Change::take_each(which, &self.matching()?),
            "set-each" => {
                let found = self.matching()?;
                let setting = Setting {
                    sid: self.sid_or_none()?,
                    set_mask: self.number(),
                    clear_mask: self.number(),
                    set_flags: self.number() as u8,
                    clear_flags: self.number() as u8,
                };
                Change::set_each(which, &found, &setting)
            }
            "order" => Change::order(which),
            "state" => Change::state(which, [AclState::Absent, AclState::Null, AclState::List][self.number() as usize]),
            "owner" => Change::owner(self.sid_or_none()?.as_ref()),
            "group" => Change::group(self.sid_or_none()?.as_ref()),
            "control" => Change::control(self.number() as u16, self.number() as u16),
            _ => panic!("there is no change {kind}"),
        })
    }
}

fn of_guid(guid: Option<Guid>) -> String {
    guid.map_or("-".to_owned(), |guid| hex(&guid.0))
}

fn of_ace(ace: &Ace) -> String {
    let types = [ace.object_type(), ace.inherited_object_type()].map(of_guid);
    format!("{},{},{},{},{},{}", ace.kind(), ace.flags(), ace.mask(), hex(ace.sid().as_bytes()), types[0], types[1])
}

fn of_acl(acl: &Acl) -> String {
    match acl {
        Acl::Absent => "absent".to_owned(),
        Acl::Null => "null".to_owned(),
        Acl::List(aces) => format!("[{}]", aces.iter().map(of_ace).collect::<Vec<_>>().join(";")),
    }
}

fn of_sid(sid: Option<Sid>) -> String {
    sid.map_or("-".to_owned(), |sid| hex(sid.as_bytes()))
}

fn of_verdict(verdict: Verdict) -> String {
    format!("{} {}", verdict.granted as u8, verdict.mask)
}

fn of_verdicts(answers: &[Result<Verdict, Fault>]) -> String {
    let one = |answer: &Result<Verdict, Fault>| answer.as_ref().map_or_else(of_fault, |it| of_verdict(*it));
    answers.iter().map(one).collect::<Vec<_>>().join(" | ")
}

fn of_column(found: &Converted) -> String {
    let ends = found.offsets.windows(2).map(|ends| hex(&found.data[ends[0] as usize..ends[1] as usize]));
    let mut said: Vec<_> = ends.collect();
    for (row, fault) in &found.faults {
        said[*row] = format!("{}{}", of_fault(fault), said[*row].trim_start_matches('-'));
    }
    said.join(" | ")
}

fn of_counts(counts: &[u32]) -> String {
    counts.iter().map(u32::to_string).collect::<Vec<_>>().join(",")
}

fn of_part(part: Option<Part>) -> u32 {
    part.map_or(0, |part| match part {
        Part::Owner => sys::SDTOOL_OWNER,
        Part::Group => sys::SDTOOL_GROUP,
        Part::Sacl => sys::SDTOOL_SACL,
        Part::Dacl => sys::SDTOOL_DACL,
        _ => panic!("an unknown part"),
    })
}

fn of_field(field: Option<Field>) -> u32 {
    field.map_or(0, |field| match field {
        Field::Kind => sys::SDTOOL_FIELD_KIND,
        Field::Flags => sys::SDTOOL_FIELD_FLAGS,
        Field::Rights => sys::SDTOOL_FIELD_RIGHTS,
        Field::ObjectType => sys::SDTOOL_FIELD_OBJECT_TYPE,
        Field::InheritedObjectType => sys::SDTOOL_FIELD_INHERITED_OBJECT_TYPE,
        Field::Sid => sys::SDTOOL_FIELD_SID,
        Field::Size => sys::SDTOOL_FIELD_SIZE,
        _ => panic!("an unknown field"),
    })
}

fn of_fault(fault: &Fault) -> String {
    let place = fault.place().map_or("-".to_owned(), |at| {
        format!("{},{},{},{},{}", of_part(at.part), number(at.ace), of_field(at.field), at.offset, at.size)
    });
    let argument = fault.argument().unwrap_or_default();
    let parts = [fault.part(), fault.other_part()].map(of_part);
    let (entry, name) = (fault.entry(), fault.name());
    format!("! {} {name} {} {} {argument} {entry} {place} {fault}", fault.number(), parts[0], parts[1])
}

fn of_reason(reason: &Reason) -> String {
    let kind = match reason.kind {
        ReasonKind::Nothing => 0,
        ReasonKind::Label => 1,
        ReasonKind::NoDacl => 2,
        ReasonKind::Owner => 3,
        ReasonKind::Privilege => 4,
        ReasonKind::Granted => 5,
        ReasonKind::Denied => 6,
        _ => panic!("an unknown reason"),
    };
    format!("{kind},{},{}", number(reason.place), reason.grants() as u8)
}

fn of_origins(origins: &[Origin]) -> String {
    let one = |origin: &Origin| format!("{},{},{}", origin.place, origin.from_creator as u8, origin.inherit_only as u8);
    format!("[{}]", origins.iter().map(one).collect::<Vec<_>>().join(";"))
}

fn answered(job: &str, words: &mut Words) -> Answer {
    Ok(match job {
        "version" => format!("{} {}", version(), version_number()),
        "bytes" => hex(words.descriptor()?.as_bytes()),
        "sddl" => {
            let (text, domain) = (words.text(), words.sid_or_none()?);
            hex(SecurityDescriptor::from_sddl(&text, domain.as_ref())?.as_bytes())
        }
        "to-sddl" => {
            let (domain, numeric) = (words.sid_or_none()?, words.flag());
            words.descriptor()?.to_sddl(domain.as_ref(), numeric)
        }
        "explain" => {
            let (domain, numeric) = (words.sid_or_none()?, words.flag());
            hex(words.descriptor()?.explain(domain.as_ref(), numeric).as_bytes())
        }
        "sid" => {
            let sid = words.sid()?;
            let domain = words.sid_or_none()?;
            format!("{sid} {}", sid.alias(domain.as_ref()).unwrap_or_else(|| "-".to_owned()))
        }
        "sid-text" => {
            let (text, domain) = (words.text(), words.sid_or_none()?);
            hex(Sid::parse(&text, domain.as_ref())?.as_bytes())
        }
        "guid" => words.guid().expect("16 bytes").to_string(),
        "guid-text" => of_guid(Some(words.text().parse()?)),
        "rights" => rights_from_text(&words.text())?.to_string(),
        "rights-text" => hex(rights_to_text(words.number(), words.flag()).as_bytes()),
        "flags" => flags_from_text(&words.text())?.to_string(),
        "flags-text" => hex(flags_to_text(words.number() as u8)?.as_bytes()),
        "ace-text" => {
            let (text, domain) = (words.text(), words.sid_or_none()?);
            of_ace(&Ace::parse(&text, domain.as_ref())?)
        }
        "ace" => {
            let (domain, numeric) = (words.sid_or_none()?, words.flag());
            words.ace()?.to_sddl(domain.as_ref(), numeric)?
        }
        "parts" => {
            let parts = words.descriptor()?.parts();
            let acls = [&parts.sacl, &parts.dacl].map(of_acl);
            let sids = [parts.owner, parts.group].map(of_sid);
            let (control, manager) = (parts.control, parts.resource_manager);
            format!("{} {} {} {} {control} {manager}", sids[0], sids[1], acls[0], acls[1])
        }
        "build" => {
            let (control, resource_manager) = (words.number() as u16, words.number() as u8);
            let (owner, group) = (words.sid_or_none()?, words.sid_or_none()?);
            let (sacl, dacl) = (words.acl()?, words.acl()?);
            let parts = Parts { owner, group, dacl, sacl, control, resource_manager };
            hex(SecurityDescriptor::build(&parts)?.as_bytes())
        }
        "check" => {
            let checker = Checker::new(&words.token()?, &words.request()?);
            of_verdict(checker.check_bytes(&words.bytes())?)
        }
        "check-many" => {
            let checker = Checker::new(&words.token()?, &words.request()?);
            let all: Vec<_> = (0..words.number()).map(|_| words.bytes()).collect();
            of_verdicts(&checker.check_many(&all.iter().map(|bytes| &**bytes).collect::<Vec<_>>())?)
        }
        "check-column" => {
            let checker = Checker::new(&words.token()?, &words.request()?);
            let (data, offsets) = words.column();
            of_verdicts(&checker.check_column(&data, &offsets)?)
        }
        "convert-many" => {
            let conversion = match words.word() {
                "to-sddl" => Conversion::ToSddl { numeric: words.flag() },
                "from-sddl" => Conversion::FromSddl,
                _ => Conversion::Normalize,
            };
            let (domain, (data, offsets)) = (words.sid_or_none()?, words.column());
            of_column(&convert_column(conversion, domain.as_ref(), &data, &offsets)?)
        }
        "reasons" => {
            let checker = Checker::new(&words.token()?, &words.request()?);
            let reasons = checker.reasons(&words.descriptor()?)?;
            reasons.iter().map(of_reason).collect::<Vec<_>>().join(" ")
        }
        "derive" => {
            let made = words.creation()?;
            hex(words.descriptor()?.derive(&made)?.as_bytes())
        }
        "derive-many" => {
            let (made, (data, offsets)) = (words.creation()?, words.column());
            of_column(&derive_column(&made, &data, &offsets)?)
        }
        "origins" => {
            let made = words.creation()?;
            let origins = words.descriptor()?.origins(&made)?;
            format!("{} {}", of_origins(&origins.sacl), of_origins(&origins.dacl))
        }
        "edit" => {
            let changes = (0..words.number()).map(|_| words.change()).collect::<Result<Vec<_>, _>>()?;
            let edited = words.descriptor()?.edit(&changes)?;
            format!("{} {}", hex(edited.descriptor.as_bytes()), of_counts(&edited.touched))
        }
        "order" => {
            let order = words.descriptor()?.order();
            format!("{} {}", number(order.sacl), number(order.dacl))
        }
        "run" => {
            let spelled: Vec<_> = (0..words.number()).map(|_| words.text()).collect();
            let ending = run(&spelled.iter().map(|word| &**word).collect::<Vec<_>>(), &words.bytes());
            format!("{} {} {}", ending.status, hex(&ending.output), hex(ending.message.as_bytes()))
        }
        _ => panic!("there is no job {job}"),
    })
}

fn answer(line: &str) -> String {
    let mut words = Words(line.split_whitespace());
    let job = words.word().to_owned();
    answered(&job, &mut words).unwrap_or_else(|fault| of_fault(&fault))
}

/// Nanoseconds of one call of many.
fn measured(mut call: impl FnMut()) -> f64 {
    let mut best = f64::MAX;
    for _ in 0..200 {
        let began = Instant::now();
        (0..2_000).for_each(|_| call());
        best = best.min(began.elapsed().as_secs_f64() * 1e9 / 2_000.0);
    }
    best
}

fn main() -> io::Result<()> {
    let given: Vec<_> = std::env::args().skip(1).collect();
    if let [job, descriptor, sid] = &*given {
        assert_eq!(job, "time");
        let line = format!("{descriptor} {sid}");
        let mut words = Words(line.split_whitespace());
        let descriptor = words.descriptor().unwrap();
        let checker = Checker::new(&Token::new(&[words.sid().unwrap()], &[]).unwrap(), &Request::new(0x120089));
        let check = measured(|| assert!(checker.check(&descriptor).unwrap().granted));
        println!("{check} {}", measured(|| assert!(version_number() > 0)));
        return Ok(());
    }
    // Each of some threads answers all lines, and one says what all have said.
    let lines: Arc<Vec<String>> = Arc::new(io::stdin().lock().lines().collect::<Result<_, _>>()?);
    let threads: usize = given.first().map_or(1, |count| count.parse().unwrap());
    let mut running = Vec::new();
    for _ in 0..threads {
        let lines = lines.clone();
        running.push(thread::spawn(move || lines.iter().map(|line| answer(line)).collect::<Vec<_>>()));
    }
    let mut answers: Vec<_> = running.into_iter().map(|thread| thread.join().expect("a thread")).collect();
    answers.dedup();
    assert_eq!(answers.len(), 1, "threads have said different things");
    let mut output = io::BufWriter::new(io::stdout().lock());
    answers[0].iter().try_for_each(|line| writeln!(output, "{line}"))
}
