//! One call of the library beside one of the model, on the same bytes.

use super::cases::{case, Case};
use super::coverage::note;
use super::file_faults::word;
use crate::support::coverage::Coverage;
use crate::support::lent::{Lender, EDGES};
use crate::support::packed::packed;
use crate::support::random::Random;
use crate::support::room::now_trying;
use crate::support::run::Trial;
use corkgully::{boundary, model};

pub struct FileTrial {
    seed: u64,
    file: Lender,
    groups: Lender,
    links: Lender,
}

impl Trial for FileTrial {
    fn new(seed: u64) -> FileTrial {
        FileTrial {
            seed,
            file: Lender::new(),
            groups: Lender::new(),
            links: Lender::new(),
        }
    }

    fn run(&mut self, number: u64, coverage: &mut Coverage) {
        let case = case(self.seed, number);
        let mut random = Random::new(!self.seed, number);
        let edge = random.one_of(&EDGES);

        // The lists hold noise, so that a place that shouldn't be written is seen whatever is
        // written.
        let mut groups = vec![0; case.groups_length];
        let mut links = vec![0; case.links_length];
        random.fill(&mut groups);
        random.fill(&mut links);

        let lent_file = self.file.lend(edge, &case.file);
        let lent_groups = self.groups.lend(edge, &groups);
        let lent_links = self.links.lend(edge, &links);
        now_trying(number);
        let answer = boundary::read(lent_file, lent_groups, lent_links);
        let model_answer = model::read(&case.file, &mut groups, &mut links);

        let told = || {
            format!(
                "case {} of seed {:#x}: {} bytes; lists of {}, {}; {:?}; put in {:?}; answer {:#x}",
                number,
                self.seed,
                case.file.len(),
                case.groups_length,
                case.links_length,
                edge,
                case.faults,
                answer
            )
        };
        assert_eq!(answer, model_answer, "the answers differ; {}", told());
        for (name, lender, bytes) in [
            ("file", &mut self.file, &case.file),
            ("groups", &mut self.groups, &groups),
            ("links", &mut self.links, &links),
        ] {
            assert!(lender.lent() == bytes, "the {} differ; {}", name, told());
            assert!(lender.margins_kept(), "written outside; {}", told());
        }
        if let Some(answer) = case.told {
            assert_eq!(
                model_answer,
                answer,
                "not the answer it was made for; {}",
                told()
            );
        }
        if number % 4 == 0 {
            check_typed(&case, model_answer, &groups, &links);
        }
        note(coverage, &case, edge, model_answer);
    }
}

/// What the typed wrapper gives is what the answer number and the lists say, and a survey that was
/// admitted comes back as it was.
fn check_typed(case: &Case, answer: u64, groups: &[u8], links: &[u8]) {
    let entry = |list: &[u8], k: usize| (word(list, 0, 2 * k), word(list, 0, 2 * k + 1));
    if answer == 1 {
        return; // the typed reader lends lists of its own
    }
    match corkgully::read(&case.file) {
        Ok(survey) => {
            let read_groups: Vec<_> = survey.groups.iter().map(|g| (g.dead, g.live)).collect();
            let read_links: Vec<_> = survey.links.iter().map(|l| (l.from, l.to)).collect();
            assert_eq!(model::read_all(read_groups.len(), read_links.len()), answer);
            assert!((0..read_groups.len()).all(|k| read_groups[k] == entry(groups, k)));
            assert!((0..read_links.len()).all(|k| read_links[k] == entry(links, k)));
            if let Some(draft) = &case.draft {
                assert_eq!(
                    (read_groups, read_links),
                    (draft.groups.clone(), draft.links.clone())
                );
            }
        }
        Err(refusal) => assert_eq!(packed(refusal), answer),
    }
}
