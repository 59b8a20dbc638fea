import SwiftUI

@main struct TodoApp: App {
    var body: some Scene { WindowGroup { TodoList() } }
}

struct Item: Identifiable {
    let id: Int
    var title: String
    var done = false
}

struct TodoList: View {
    @State private var items = [Item(id: 1, title: "milk"), Item(id: 2, title: "tea")]
    @State private var next = 3

    var left: Int {
        var count = 0
        for item in items {
            if !item.done { count += 1 }
        }
        return count
    }

    func add() {
        items.append(Item(id: next, title: "item \(next)"))
        next += 1
    }

    var body: some View {
        VStack(alignment: .leading, spacing: 1) {
            Text("\(left) left").bold()
            ForEach($items) { $item in
                Row(item: $item)
            }
            if items.isEmpty {
                Text("nothing to do")
            } else {
                Button("Remove the first") { items.removeFirst() }
            }
            Button("Add") { add() }
        }
        .padding()
    }
}

struct Row: View {
    @Binding var item: Item

    var body: some View {
        Toggle(item.title, isOn: $item.done)
            .disabled(item.title == "")
    }
}
