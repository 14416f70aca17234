// German words for what the page says in sentences, by the English ones, or by their place where one English word is
// two German ones. Every other text is spelled with letters that no English word has, so that a text which can't be
// translated is seen.
export const GERMAN = {
    "en": "de",
    "After the change: {sentence}": "Nach der Änderung: {sentence}",
    "Before: {sentence}.": "Vorher: {sentence}.",
    "Nothing is changed yet.": "Noch ist nichts geändert.",
    "Take {aces} away": "{aces} wegnehmen",
    "{aces} taken away.": "{aces} weggenommen.",
    "gains {rights}": "gewinnt: {rights}",
    "loses {rights}": "verliert: {rights}",
    "this": "das",
    "this folder": "diesen Ordner",
    "this file": "diese Datei",
    "this registry key": "diesen Registrierungsschlüssel",
    "this directory object": "dieses Verzeichnisobjekt",
    "this service": "diesen Dienst",
    "the service manager": "die Diensteverwaltung",
    "this event log": "dieses Ereignisprotokoll",
    "this printer": "diesen Drucker",
    "this print server": "diesen Druckserver",
    "files through this share": "Dateien über diese Freigabe",
    "this scheduled task": "diese geplante Aufgabe",
    "this named pipe": "diese Named Pipe",
    "this WMI namespace": "diesen WMI-Namensraum",
    "this process": "diesen Prozess",
    "this component": "diese Komponente",
    "this certificate template": "diese Zertifikatvorlage",
    "this certification authority": "diese Zertifizierungsstelle",
    "this account": "dieses Konto",
    "change {these}": "{these} ändern",
    "act for others on {these}": "sich gegenüber {these} als andere ausgeben",
    "read the password of {these}": "das Kennwort für {these} lesen",
    "{has} full control of {these}{reach}": "{has} Vollzugriff auf {these}{reach}",
    "{has} full control": "{has} Vollzugriff",
    "{can} change the permissions of {these}{reach}": "{can} die Berechtigungen für {these}{reach} ändern",
    "{can} take ownership of {these}{reach}": "{can} {these}{reach} in Besitz nehmen",
    "{owns} {these}, and so can change its permissions{reach}":
        "{owns} {these} und {can} darum die Berechtigungen dafür ändern{reach}",
    "{can} {rights} {these}{reach}": "{can} {these}{reach} {rights}",
    "{can} delete {these}{reach}": "{can} {these}{reach} löschen",
    "{can} {rights} here{reach}": "{can} hier{reach} {rights}",
    "{can} {rights}{reach}": "{can}{reach} {rights}",
    "{can} change {these}{reach}": "{can} {these}{reach} ändern",
    "{can} change parts of {these}{reach}": "{can} {these}{reach} in Teilen ändern",
    "{can} read {these}{reach}": "{can} {these}{reach} lesen",
    "{can} run {these}{reach}": "{can} {these}{reach} ausführen",
    "{who} {does}": "{who} {does}",
    "can": "darf",
    "has": "hat",
    "owns": "besitzt",
    "have": "haben",
    "own": "besitzen",
    "verdict.many.can": "dürfen",
    "what is made in {these}": "was in {these} entsteht",
    " and everything in it": " und alles darin",
    " and in everything in it": " und in allem darin",
    ", here and in everything in it": ", hier und in allem darin",
    ", not the object itself": ", nicht das Objekt selbst",
    "{first} and {second}": "{first} und {second}",
    "{first} and {count} others": "{first} und {count} andere",
    "{rights} and more": "{rights} und mehr",
    "{who} has full control: there is no DACL": "{who} hat Vollzugriff: es gibt keine DACL",
    "{who} has full control: the DACL is null": "{who} hat Vollzugriff: die DACL ist NULL",
    "Unless the source left it out: then nothing is known.":
        "Es sei denn, die Quelle hat sie weggelassen: dann ist nichts bekannt.",
    "So nothing is refused.": "Also wird nichts verweigert.",
    "Nobody gets in: the DACL is empty": "Niemand kommt hinein: die DACL ist leer",
    "Nobody gets in: ACE 1 denies everyone": "Niemand kommt hinein: ACE 1 verweigert es jedem",
    "Nobody gets in: no ACE allows anything here": "Niemand kommt hinein: keine ACE erlaubt hier etwas",
    "{who} can still change that, as owner.": "{who} kann das als Besitzer noch ändern.",
    "It has no owner who could change that.": "Es hat keinen Besitzer, der das ändern könnte.",
    "{who} {does}, beside {trusted}": "{who} {does}, ebenso {trusted}",
    "Only {who} {does}": "Nur {who} {does}",
    "Only {trusted} can {change}": "Nur {trusted} können {change}",
    "Nobody can {change}": "Niemand kann {change}",
    "administrators": "Administratoren",
    "the system": "das System",
    "Depends on what this is: {who} may be able to change it":
        "Kommt darauf an, was das ist: {who} kann es vielleicht ändern",
    "Depends on what this is": "Kommt darauf an, was das ist",
    "{count} accounts": "{count} Konten",
    "Depends on its class: if it is a {classes}, {sentence}":
        "Kommt auf die Klasse an. Ist es ein {classes}: {sentence}",
    "{first} or one of {count} other classes": "{first} oder eine von {count} anderen Klassen",
    "Depends on its class: unless it is a {classes}, {sentence}":
        "Kommt auf die Klasse an. Ist es kein {classes}: {sentence}",
    "Depends on the condition of ACE {number}: if it holds, {sentence}":
        "Kommt auf die Bedingung von ACE {number} an. Trifft sie zu: {sentence}",
    "Depends on the condition of ACE {number}: unless it holds, {sentence}":
        "Kommt auf die Bedingung von ACE {number} an. Trifft sie nicht zu: {sentence}",
    "Depends on the conditions of {aces}. At worst: {sentence}":
        "Kommt auf die Bedingungen von {aces} an. Schlimmstenfalls: {sentence}",
    "{aces} a condition: this is so whether it holds or not.":
        "{aces} eine Bedingung: dies gilt, ob sie zutrifft oder nicht.",
    "ACE {numbers} has": "ACE {numbers} hat",
    "ACEs {numbers} have": "Die ACEs {numbers} haben",
    "Can't be read: {what}": "Nicht lesbar: {what}",
    "{where} has no trustee.": "{where} hat keinen Treuhänder.",
    "{where} is empty.": "{where} ist leer.",
    "{where}: {what}": "{where}: {what}",
    "\u201c{text}\u201d is no SID.": "\u201e{text}\u201c ist keine SID.",
    "So nothing is known of what it grants.": "Also ist nichts bekannt von dem, was er gewährt.",
    "That is everybody, also without logging on.": "Das ist jeder, auch ohne Anmeldung.",
    "That is nearly everybody who logs on.": "Das ist fast jeder, der sich anmeldet.",
    "That is any application that has it.": "Das ist jede Anwendung, die das hat.",
    "ACE {numbers}": "ACE {numbers}",
    "ACEs {numbers}": "ACEs {numbers}",
    "ACE {number}": "ACE {number}",
    "By {aces}.": "Durch {aces}.",
    "By {aces}, inherited.": "Durch {aces}, geerbt.",
    "Except that ACE {number} denies {who} some of it.": "ACE {number} verweigert {who} etwas davon.",
    "Except that {who} may not {rights} (ACE {number}).": "Nur {who} nicht: {rights} (ACE {number}).",
    "More is denied by {aces}.": "Mehr verweigern {aces}.",
    "{count} more findings below.": "{count} weitere Befunde unten.",
    "1 more finding below.": "1 weiterer Befund unten.",
    "{who} can read it.": "{who} darf lesen.",
    "{who} {has} what Windows itself gives.": "{who} {has}, was Windows selbst gibt.",
    "The files have permissions of their own.": "Die Dateien haben eigene Berechtigungen.",
    "full control": "Vollzugriff",
    "modify": "ändern",
    "write": "schreiben",
    "read": "lesen",
    "read and write": "lesen und schreiben",
    "read and execute": "lesen und ausführen",
    "add files": "Dateien anlegen",
    "add subfolders": "Ordner anlegen",
    "list folder": "Ordner auflisten",
    "{count} of {all} can be changed by everybody or nearly everybody":
        "{count} von {all} kann jeder oder fast jeder ändern",
    "Account {number}": "Konto {number}",
};

const SPELLED = Object.fromEntries([..."abcdefghijklmnopqrstuvwxyzABCDEFGHIJKLMNOPQRSTUVWXYZ"].map(
    (letter, at) => [letter, String.fromCodePoint(0x430 + (at % 32) - (at > 25 ? 32 : 0))]));

// A text with other letters, but for the places of values.
export const spelled = (text) => text.replace(/\{\w+\}|[A-Za-z]/g, (part) => (part.length > 1 ? part : SPELLED[part]));

const germanOf = (text, place) => GERMAN[place] ?? (Object.hasOwn(GERMAN, text) ? GERMAN[text] : spelled(text));

/** Words with other texts at the same places. What names SIDs stays. */
export function translated(words, place = "") {
    if (typeof words === "string") {
        return germanOf(words, place);
    }
    if (typeof words !== "object" || words instanceof RegExp) {
        return words;
    }
    const all = Object.entries(words).map(([
        key, value
    ]) => [key, ["names", "relativeNames"].includes(key) ? value : translated(value, place ? `${place}.${key}` : key)]);
    return Array.isArray(words) ? all.map(([, value]) => value) : Object.fromEntries(all);
}
