//! The examples, and a few of lists and sets, as a file of the crate `model_cases`, whose claim the proof
//! checker computes: what the Rust answers, beside what it was asked; and the cases of exception words with a slot and no value,
//! whose numbers and places were worked out by hand. Lists of numbers are written as one number in hex,
//! lowest digit first, since the checker reads a long numeral faster than a long list.

use crate::aux_cases;
use crate::examples::{self, Random, coupons, few, history};
use crate::request::Request;
use crate::{Answer, Recipe, State, run};

/// So few to a claim that the checker can compute one within its bound on steps.
const CHUNK: usize = 80;

/// A list or a set with each so many other cases.
const SHARE: u64 = 20;

pub fn book(n: u64, seed: u64) -> String {
    let random = &mut Random::new(seed + 1);
    let cases: Vec<String> = examples::examples(n, seed)
        .filter_map(|request| case(&request))
        .chain((0..n / SHARE).map(|i| fed_image(random, i as usize)))
        .collect();
    let answered: Vec<String> = aux_cases::valueless()
        .iter()
        .map(|(_, image, (no, place))| format!("answered {no} {place} {}", bytes(image)))
        .collect();
    let mut text = String::from(HEAD);
    for (i, chunk) in cases.chunks(CHUNK).chain(answered.chunks(CHUNK)).enumerate() {
        text += &format!(
            "\nunfoldable pub cases{i} : List Case\ncases{i} =\n    {}\n    ∷ []\n",
            chunk.join("\n    ∷ ")
        );
    }
    text
}

/// A history, and then the coupons of a list or a set, from its image: of each kind first a list, then sets, which begin with lg_k 8.
fn fed_image(random: &mut Random, i: usize) -> String {
    let mut recipe = history(random, [4, 4, 6, 8][i % 4], 8);
    let source = source(&recipe).unwrap();
    let Recipe::History { lg_k, coupons: fed, .. } = &mut recipe else { unreachable!() };
    let plan = random.below(4);
    let coupons = coupons(random, *lg_k, plan, 24);
    let few = few(random, [*lg_k, 8, 9][i / 4 % 3], coupons);
    fed.extend(few.words);
    let answer = run(&recipe);
    let Answer::Ok(state) = answer else { unreachable!("answered {answer}") };
    format!("fed ({source}) {} {}", bytes(&few.image), image(&state))
}

const HEAD: &str = "\
-- Made by `oracle book`: requests, and what the Rust answers to them; then images with the number and place of document 02, worked out by hand. `oracle/test` makes it again and compares.
use Rattle.std.specs.Prelude.{List, [], ◌∷◌}
use Rattle.model_cases.specs.Play.{Case, history, merged, opened, refused, fed, answered, source, words, bytes}
";

fn case(request: &Request) -> Option<String> {
    Some(match (request, request.answer()) {
        (Request::Run(recipe @ Recipe::History { .. }), Answer::Ok(state)) => {
            format!("history ({}) {}", source(recipe)?, image(&state))
        }
        (Request::Run(Recipe::Open { image: from, coupons }), answer) => match answer {
            Answer::Ok(state) => {
                format!("opened {} {} {}", bytes(from), words(coupons), image(&state))
            }
            Answer::Error(_) => format!("refused {}", bytes(from)),
            Answer::Few(_) | Answer::Panic(_) => return None,
        },
        (Request::Merge { target, sources }, Answer::Ok(state)) => {
            let sources: Option<Vec<String>> = sources.iter().map(source).collect();
            format!(
                "merged ({}) ({} ∷ []) {}",
                source(target)?,
                sources?.join(" ∷ "),
                image(&state)
            )
        }
        _ => return None,
    })
}

fn source(recipe: &Recipe) -> Option<String> {
    let Recipe::History { kind, lg_k, coupons } = recipe else { return None };
    Some(format!("source {kind} {lg_k} {}", words(coupons)))
}

fn image(state: &State) -> String {
    bytes(&state.image)
}

fn bytes(list: &[u8]) -> String {
    numeral("bytes", list.len(), list.iter().rev().map(|b| format!("{b:02x}")).collect())
}

fn words(list: &[u32]) -> String {
    numeral("words", list.len(), list.iter().rev().map(|w| format!("{w:08x}")).collect())
}

fn numeral(reader: &str, len: usize, digits: String) -> String {
    let digits = digits.trim_start_matches('0');
    format!("({reader} {len} 0x{})", if digits.is_empty() { "0" } else { digits })
}
