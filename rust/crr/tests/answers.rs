//! Every function of the binding, on case L of document 01.

use crr::*;
use std::path::Path;

fn load(name: &str) -> Vec<u8> {
    let path = Path::new(env!("CARGO_MANIFEST_DIR")).join("../../examples/case-l").join(name);
    std::fs::read(path).expect("case L is there")
}

fn case() -> (Grid, Vec<u8>, Vec<u64>) {
    let grid = Grid::read(&load("grid.bin")).expect("the grid is accepted");
    let (period, prices) = read_prices(grid.constraints, &load("prices.bin")).expect("the prices are accepted");
    assert_eq!(period, Period::OnPeak);
    (grid, load("book.bin"), prices)
}

const ON_PEAK: Contract = Contract { kind: Kind::Obligation, period: Period::OnPeak, holder: 7, source: 0, sink: 1, quantity: 10_000 };

#[test]
fn refusals() {
    check_interface();
    assert_eq!(Refused::NO_DEMAND.to_string(), "refused 27: sharing a balance: the demands total 0");
    assert!(Refused::ALL.iter().all(|(_, refused)| !refused.text().is_empty()));
}

#[test]
fn files() {
    let (grid, file, prices) = case();
    assert_eq!(
        (grid.form, grid.nodes, grid.limits.as_slice(), grid.factors[0], grid.factors.len()),
        (Form::Narrow, 3, &[100_000, 50_000][..], 60_000, 6)
    );
    assert_eq!(grid.write(), Ok(load("grid.bin")));
    let wide = Grid { form: Form::Wide, ..grid.clone() };
    assert_eq!(Grid::read(&wide.write().expect("it fits the wide form")), Ok(wide));
    let book = Book::read(3, &file).expect("the book is accepted");
    assert_eq!((book.contracts.len(), book.contracts[0]), (4, ON_PEAK));
    assert_eq!(book.contracts[1].kind, Kind::Option);
    assert_eq!(book.write(3), Ok(file.clone()));
    assert_eq!(count_contracts(3, &file), Ok(4));
    assert_eq!(write_prices(Period::OnPeak, &prices), Ok(load("prices.bin")));
    assert_eq!(Grid::read(&[]), Err(Refused::SHORT_FILE));
    assert_eq!(Book::read(0, &file), Err(Refused::NODE_COUNT));
}

#[test]
fn books_from_books() {
    let (_, file, _) = case();
    let ends = |file: &[u8]| {
        Book::read(3, file).expect("it is accepted").contracts.iter().map(|c| (c.holder, c.source, c.sink)).collect::<Vec<_>>()
    };
    assert_eq!(ends(&remap_book(3, &file, &[(2, 1)]).unwrap()), [(7, 0, 1), (8, 0, 1), (7, 0, 1), (9, 0, 1)]);
    assert_eq!(ends(&write_market_view(3, &file).unwrap()), [(0, 0, 1), (0, 0, 2), (0, 0, 2), (0, 0, 1)]);
    assert_eq!(ends(&write_canonical_book(3, &file).unwrap()), [(9, 0, 1), (7, 0, 1), (7, 0, 2), (8, 0, 2)]);
    assert_eq!(write_holder_view(3, &file, 7).unwrap().len(), 16);
    assert_eq!(write_holder_view(3, &file, 1_024), Err(Refused::HOLDER_RANGE));
    let hub = Hub { nodes: vec![2, 0, 1], weights: vec![33_333, 33_333, 33_334] };
    let grown = add_hub_contract(3, &file, &hub, Contract { sink: 2, quantity: 1_000, ..ON_PEAK }).unwrap();
    assert_eq!(Book::read(3, &grown).unwrap().contracts[4..].iter().map(|c| c.quantity).collect::<Vec<_>>(), [333, 334, 333]);
    let moved = Moved { class: 1, customers: 10, rate: 1_000, old: 7, new: 8 };
    assert_eq!(net_transfers(8, &[moved]).unwrap()[55..57], [10_000, 0]);
    assert_eq!(net_transfers(7, &[moved]), Err(Refused::MIGRATION_RANGE));
    let mut loads = [0; 16];
    assert_eq!(migrate_load(3, Period::OnPeak, &file, &[moved], &loads), Err(Refused::LOAD_EXCEEDED));
    loads[6] = 40_000;
    let migrated = migrate_load(3, Period::OnPeak, &file, &[moved], &loads).unwrap();
    assert_eq!(ends(&migrated)[4..], [(8, 0, 1), (7, 1, 0)]);
}

#[test]
fn test_flows_and_cuts() {
    let (grid, file, _) = case();
    assert_eq!(test_book(&grid, Process::Monthly, Period::OnPeak, &file), Ok(Verdict::Pass));
    assert_eq!(find_flows(&grid, Period::OnPeak, &file), Ok(Flows { flows: vec![635_070_000, -200_060_000], counted: 3 }));
    assert_eq!(find_cuts(&grid, Process::Monthly, Period::OnPeak, &file), Ok(vec![]));
    let tight = Grid { limits: vec![6_001, 50_000], ..grid };
    let overload = Verdict::Fail { set: 1, count: 1, lowest: 0, excess: 34_970_000 };
    assert_eq!(test_book(&tight, Process::Monthly, Period::OnPeak, &file), Ok(overload));
    let cuts = vec![Cut { contract: 1, cut: 500 }, Cut { contract: 0, cut: 583 }];
    assert_eq!(find_cuts(&tight, Process::Monthly, Period::OnPeak, &file), Ok(cuts));
    assert_eq!([Process::Annual, Process::TierLt, Process::Monthly].map(released_percent), [Ok(65), Ok(60), Ok(100)]);
}

/// Case L tested in blocks of one constraint, each contract by itself on its own two nodes.
#[test]
fn any_size() {
    let (grid, file, _) = case();
    let limits = [6_001, 50_000];
    let contracts = Book::read(3, &file).unwrap().contracts;
    let mut verdicts = vec![];
    for block in 0..2 {
        let mut totals = Totals::new(1);
        for contract in &contracts {
            let factor = |node: u64| grid.factors[node as usize * 2 + block];
            let factors = vec![factor(contract.sink), factor(contract.source)];
            let small = Grid { form: Form::Narrow, nodes: 2, constraints: 1, limits: vec![limits[block]], factors };
            let book = Book { form: Form::Wide, contracts: vec![Contract { source: 1, sink: 0, ..*contract }] };
            let counted = add_flows(&small, Period::OnPeak, &book.write(2).unwrap(), &mut totals);
            assert_eq!(counted, Ok(usize::from(contract.period == Period::OnPeak)));
        }
        assert_eq!(totals, Totals { flows: vec![[635_070_000, -200_060_000][block]], count: 3 });
        verdicts.push(judge_flows(Process::Monthly, &limits[block..=block], &totals));
    }
    assert_eq!(verdicts, [Ok(Verdict::Fail { set: 1, count: 1, lowest: 0, excess: 34_970_000 }), Ok(Verdict::Pass)]);
    let mut most = Totals { flows: vec![0, 0], count: sizes::MAX_SUMMED - 2 };
    assert_eq!(add_flows(&grid, Period::OnPeak, &file, &mut most), Err(Refused::CONTRACT_COUNT));
    assert_eq!(add_flows(&grid, Period::OffPeak, &file, &mut most), Ok(1));
    assert_eq!(most.count, sizes::MAX_SUMMED - 1);
    assert_eq!(judge_flows(Process::Annual, &grid.limits, &Totals::new(1)), Err(Refused::SHORT_TABLE));
    assert_eq!(judge_flows(Process::Annual, &[0], &Totals { flows: vec![1], count: 0 }), Err(Refused::CONTRACT_COUNT));
}

fn cents(whole: i64, parts: u64) -> ExactCents {
    ExactCents { whole, parts }
}

#[test]
fn shortfall_and_exposure() {
    let (grid, file, prices) = case();
    let (process, period) = (Process::Monthly, Period::OnPeak);
    let found = Shortfall { payment: cents(899, 17_000_000), rent: cents(227_500, 0), shortfall: cents(-226_601, 17_000_000) };
    assert_eq!(find_shortfall(&grid, process, period, &prices, &file), Ok(found));
    assert_eq!(find_shortfall(&grid, process, period, &prices[..1], &file), Err(Refused::SHORT_TABLE));
    assert_eq!(find_shortfall(&grid, process, period, &[500_001, 0], &file[..1]), Err(Refused::PRICE_RANGE));
    assert_eq!(find_exposure(&grid, process, period, &file), Ok(Exposure { least: cents(0, 0), most: cents(0, 0), prices: vec![0, 0] }));
    let tight = Grid { limits: vec![6_001, 50_000], ..grid };
    let worst = Exposure { least: cents(174_850, 0), most: cents(174_850, 0), prices: vec![500_000, 0] };
    assert_eq!(find_exposure(&tight, process, period, &file), Ok(worst));
    assert_eq!(find_shortfall(&tight, process, period, &[1, 0], &file).map(|found| found.shortfall), Ok(cents(0, 34_970_000)));
    assert_eq!(find_exposure(&tight, process, period, &file[..1]), Err(Refused::SHORT_FILE));
}

#[test]
fn money() {
    let (grid, file, prices) = case();
    let hour = settle_hour(&grid, &prices, Period::OnPeak, &file).unwrap();
    assert_eq!((hour.cents.len(), hour.priced.len(), hour.sum, hour.whole, hour.parts), (4, 4, 899, 899, 17_000_000));
    assert_eq!(settle_hour(&grid, &prices, Period::OnPeak, &file[..1]), Err(Refused::SHORT_FILE));
    assert_eq!(settle_hour(&grid, &[500_001, 0], Period::OnPeak, &file[..1]), Err(Refused::PRICE_RANGE));
    let mcc = find_mcc(&grid, &prices).unwrap();
    let hub = Hub { nodes: vec![1], weights: vec![100_000] };
    assert_eq!(find_hub_mcc(&grid, &prices, &hub), Ok(HubMcc { quotient: mcc[1], remainder: 0 }));
    assert_eq!(find_hub_mcc(&grid, &prices, &Hub { nodes: vec![1, 1], weights: vec![50_000; 2] }), Err(Refused::HUB_NODE_TWICE));
    assert_eq!(share_balance(-100, &[1, 1, 1]), Ok(vec![-34, -33, -33]));
    assert_eq!(share_balance(100, &[]), Err(Refused::SHARE_RANGE));
}

#[test]
fn running() {
    let (grid, _, _) = case();
    let grid = Grid { limits: vec![6_000, 50_000], ..grid };
    let mut running = Running::open(&grid, Process::Monthly, Period::OnPeak).unwrap();
    assert_eq!(running.return_to(Tier::One), Err(Refused::TIER_MARK));
    running.mark(Tier::Lt).unwrap();
    running.add(ON_PEAK).unwrap();
    assert_eq!((running.awards(), running.flows()), (vec![ON_PEAK], &[600_000_000, -200_000_000][..]));
    assert_eq!(running.add(Contract { quantity: 1, ..ON_PEAK }), Err(Refused::AWARD_OVERLOAD));
    running.return_to(Tier::Lt).unwrap();
    assert_eq!((running.awards(), running.flows()), (vec![], &[0, 0][..]));
}

#[test]
fn texts_and_dates() {
    let [grid, book, prices] = ["grid.bin", "book.bin", "prices.bin"].map(load);
    assert!(write_report(&grid, &book).unwrap().starts_with("period,process,"));
    assert!(write_statement(&grid, &book, &prices).unwrap().starts_with("contract,holder,kind,cents,priced\n"));
    assert_eq!(write_statement(&grid, &[], &prices), Ok("refused,book,1\n".to_string()));
    assert_eq!(hour_period(2024, 7, 5, 22), Ok(Period::OnPeak));
    assert_eq!(hour_period(2024, 7, 4, 22), Ok(Period::OffPeak));
    assert_eq!(hour_period(2024, 11, 3, 25), Ok(Period::OffPeak));
    assert_eq!(hour_period(2024, 7, 5, 26), Err(Refused::NO_SUCH_DATE));
    assert_eq!(weekday(2024, 2, 29), Ok(4));
    assert_eq!(month_later(2024, 1, 31), Ok((2024, 2, 29)));
    assert_eq!(month_later(2037, 12, 1), Err(Refused::NO_SUCH_DATE));
}
