// Two traits that need each other. Nothing implements the first two, since a where-clause has to be shown before its impl may be
// used. The last two are implemented, since what rests on itself holds where one of the traits on the way round is coinductive.
trait Ping {}
trait Pong {}
#[rustc_coinductive]
trait Tick {}
trait Tock {}
struct Game;
impl Ping for Game where Game: Pong {}
impl Pong for Game where Game: Ping {}
impl Tick for Game where Game: Tock {}
impl Tock for Game where Game: Tick {}

Game: Ping + Pong?
Game: Tick + Tock?
