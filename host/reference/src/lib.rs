//! Paper 01 with the notes of 02, a second time, in plain Rust, to hold against
//! the proved planner.
//!
//! | module | subject |
//! |---|---|
//! | `plan` | a plan as numbers, its text, N, cost and ties, and which places are joined |
//! | `reader` | from the file's bytes to a plan, or to its first fault |
//! | `product` | the reachable part of the product graph, written out |
//! | `components` | its strongly connected components |
//! | `planner` | the best component, and a tour that keeps all it can |
//! | `entry` | `plan_tour` on byte slices, with the answer block |
//! | `upcoming` | the places from a step on, and where they begin |
//! | `answers` | an answer as numbers, its text, and `read_answer` |
//! | `breaks` | where a proposed tour breaks |
//! | `acceptance` | whether an automaton accepts a tour of any length |
//! | `checker` | what a tour drawn by hand is worth, and `check_tour` |
//! | `tour` | any tour judged by the definitions, without the product |
//! | `causes` | all that breaks a proposed tour, cause by cause |
//! | `brute` | the best of all short tours, and of some chance ones |
//! | `random` | a small source of chance with a fixed seed |
//! | `rules`, `maps`, `shapes` | automata, roads and large plans to generate |
//! | `extremes` | shapes of plans for time alone: complete maps, little reached, tiny |
//! | `walks` | walks of a map, and where they close to tours |
//! | `guards` | their move lines of five numbers |
//! | `watchers` | their rules of weight 0, and plans with such rules that were worked out by hand |
//! | `copies` | their roads that are written twice |
//! | `fixed_copies` | plans with such roads whose answers were worked out by hand |
//! | `parking` | their dead ends, at which a car parks |
//! | `fixed_parking` | plans with dead ends whose answers were worked out by hand |
//! | `damage` | faulty files, made from good ones |
//! | `slips` | what may stand in the place of one line of an answer |
//! | `texts`, `batches` | texts to read as answers: fixed ones, and generated ones |
//! | `drawn` | proposed tours: what may be made of a tour of the map, and lists of no relation |
//! | `sketches` | fixed ones, some with their answers worked out by hand |
//! | `loads` | tours to time the checker with |
//! | `cases` | files to plan: fixed ones, and generated ones by their number |
//! | `trials` | plans to search for those that take the library longest, by their number |
//! | `clock` | the time that counts where two libraries are timed |
//! | `timing` | how long calls take, of two libraries by turns |
//! | `ranking` | the trials whose ratio is worst |
//! | `figures` | the cases that 01 sets down with their answers |
//! | `handmade` | small plans and rules for fixed cases and tests |
//! | `library` | the entries under comparison: of an archive, or the stand-in |
//! | `lent` | a buffer between margins, as it is lent to a call |
//! | `reply` | a call with guarded buffers, and what it leaves behind |
//! | `harness` | one case put to both planners, the answers set side by side |
//! | `serving` | upcoming places, by numbers and along the tours answered |
//! | `reading` | one text put to both readers, the answers set side by side |
//! | `finding` | a call of `check_tour` with guarded bytes, and what it leaves behind |
//! | `checking` | one proposed tour put to both checkers, the answers set side by side |
//! | `checked` | what a comparison has met of `check_tour` |
//! | `watched` | what it has met of rules of weight 0 |
//! | `copied` | what it has met of roads that are written twice |
//! | `parked` | what it has met of dead ends |
//! | `tally` | what a comparison has met, and what it should have met |
//! | `transcript` | a library's answers to generated plans, written down with their places |

pub mod acceptance;
pub mod answers;
pub mod batches;
pub mod breaks;
pub mod brute;
pub mod cases;
pub mod causes;
pub mod checked;
pub mod checker;
pub mod checking;
pub mod clock;
pub mod components;
pub mod copied;
pub mod copies;
pub mod damage;
pub mod drawn;
pub mod entry;
pub mod extremes;
pub mod figures;
pub mod finding;
pub mod fixed_copies;
pub mod fixed_parking;
pub mod guards;
pub mod handmade;
pub mod harness;
pub mod lent;
pub mod library;
pub mod loads;
pub mod maps;
pub mod parked;
pub mod parking;
pub mod plan;
pub mod planner;
pub mod product;
pub mod random;
pub mod ranking;
pub mod reader;
pub mod reading;
pub mod reply;
pub mod rules;
pub mod serving;
pub mod shapes;
pub mod sketches;
pub mod slips;
pub mod tally;
pub mod texts;
pub mod timing;
pub mod tour;
pub mod transcript;
pub mod trials;
pub mod upcoming;
pub mod walks;
pub mod watched;
pub mod watchers;
