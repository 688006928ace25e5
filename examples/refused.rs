pub enum Valve {
    Main = 0b12,
}
