@main struct A: App { var body: some Scene { WindowGroup { Main() } } }
struct Main: View {
    @State private var n = 6000
    var body: some View { VStack { Text("Steps today: \(n)"); Button("Walk round the block") { n += 250 } } }
}
