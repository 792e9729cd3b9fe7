//! A fixed input for request (ii): every way to wake, with each choice of marks among those who
//! wait; and what leaves a mark as it is, or ends with it.

/// A is the son of B, owns number 1, has both numbers locked, and holds tracks of its own and global
/// ones. C, D and F are to wait, and E, their equal, is suspended.
const OPENING: &str =
    "FRESH,4,0,2 LOAD,A,10 LOAD,B,10 LOAD,C,10 LOAD,D,10 LOAD,E,10 LOAD,F,10 RU,E \
                       SS,E RU,B EXEC,9,A RN,ALLOC,L,0 RN,ALLOC,G,0 RN,LOCK,1,0 RN,LOCK,2,0 \
                       EXEC,4,2,0 EXEC,15,2,0 RU,C RU,D RU,F PR,A,10";

/// What C, D and F ask for, in turn, so that they wait.
const WAITS: [[&str; 3]; 5] = [
    ["EXEC,4,1,0", "EXEC,15,4,0", "EXEC,4,2,0"],
    ["RN,LOCK,1,0", "RN,LOCK,1,0", "RN,LOCK,1,0"],
    ["RN,ALLOC,L,0", "RN,ALLOC,G,0", "RN,ALLOC,L,0"],
    ["EXEC,4,3,0", "RN,LOCK,1,0", "RN,ALLOC,G,0"],
    ["RN,ALLOC,L,0", "EXEC,15,1,0", "RN,LOCK,2,0"],
];

/// What A asks for, or the operator, so that they wake, or some of them.
const WAKING: [&str; 9] = [
    "EXEC,5,1,0",
    "EXEC,5,ALL",
    "EXEC,16,2,2",
    "RN,CLEAR,1",
    "RN,CLEAR,2",
    "RN,FREE,1",
    "EXEC,6",
    "OF,A,1",
    "OF,A,8",
];

/// Who waits then.
const WAITING: [&str; 4] = ["B", "C", "D", "F"];

/// Asked of one who is marked, one after another: it stays so. Its timers come due.
const KEPT: &str = "SS,* GO,* RU,* EXEC,9,* EXEC,10,* PR,*,10 PR,*,9 PR,*,10 PAGE EXEC,12,*,1,0,1 \
                    TICK PAGE EXEC,12,*,1,2,1 TICK TICK EXEC,12,*,1,1,1 TICK,3 PAGE EXEC,12,*,1,0,2 TICK,2 \
                    EXEC,12,*,2,1,1 TICK,300 PAGE SS,*";

/// All of it, with a page wherever something may show.
pub fn every_waking() -> Vec<u8> {
    let mut lines: Vec<String> = Vec::new();
    for waits in WAITS {
        for marks in 0..1 << WAITING.len() {
            let marked = || (0..WAITING.len()).filter(move |place| marks >> place & 1 == 1);
            for waking in WAKING {
                begin(&mut lines, waits);
                lines.extend(marked().map(|place| format!("SS,{}", WAITING[place])));
                add(&mut lines, &format!("{} PAGE LOAD,NEW,10", waking));
                // Those in chain 6 are suspended as any others, and nobody else is.
                lines.extend(WAITING.map(|name| format!("GO,{}", name)));
                add(&mut lines, "PAGE");
            }
        }
        for name in WAITING {
            for ending in ["RN,FREE,1", "EXEC,5,ALL", "OF,A,1", "OF,*,1", "OF,*,8"] {
                begin(&mut lines, waits);
                add(
                    &mut lines,
                    &format!("SS,* PAGE {} PAGE {} PAGE", KEPT, ending).replace('*', name),
                );
                // Who comes into the record, or runs again, and waits, is not marked.
                add(&mut lines, &format!("LOAD,{},10 RU,{} PR,{},1", name, name, name));
                add(&mut lines, &format!("{} PAGE SS,{} PAGE", waits[0], name));
            }
        }
    }
    lines.join("\n").into_bytes()
}

fn begin(lines: &mut Vec<String>, waits: [&str; 3]) {
    add(lines, OPENING);
    add(lines, &waits.join(" "));
}

/// Lines that are written with blanks between them.
fn add(lines: &mut Vec<String>, more: &str) {
    lines.extend(more.split_whitespace().map(String::from));
}
