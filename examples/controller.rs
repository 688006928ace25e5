// The valves of a drip controller.
pub enum Valve {
    Main = 14, // at the pump
    MatureBlock { minutes: u16, lines: u8 },
    YoungBlock(u16),
    Drain = -2
}
