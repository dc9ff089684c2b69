// E0505: a board is gathered while a post of it is in use.
fn main() {
    let mut board = msc::Board::new(2, 1).unwrap();
    let mut posts = board.posts();
    let gathered = board.gather();
    let _ = posts[0].send(2, "late", b"");
    drop(gathered);
}
